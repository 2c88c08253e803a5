(define (domain t) (:predicates (p) (q ?x))
  (:action a :parameters (?x)
    :effect (p)))
