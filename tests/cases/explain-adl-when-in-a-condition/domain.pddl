(define (domain t) (:predicates (p) (q ?x))
  (:action a :parameters (?x)
    :precondition (forall (?y) (when (p) (q ?y)))))
