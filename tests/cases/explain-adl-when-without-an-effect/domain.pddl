(define (domain t) (:predicates (p) (q ?x))
  (:action a :parameters (?x)
    :effect (and (when (p) ) (q ?x))))
