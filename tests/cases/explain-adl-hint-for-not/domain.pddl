(define (domain t) (:predicates (p) (q ?x))
  (:action a :parameters (?x)
    :precondition (not (and (p) (q ?x)))))
