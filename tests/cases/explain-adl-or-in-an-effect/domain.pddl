(define (domain t) (:predicates (p) (q ?x))
  (:action a :parameters (?x)
    :effect (when (or (p) (q ?x)) (or (p) (q ?x)))))
