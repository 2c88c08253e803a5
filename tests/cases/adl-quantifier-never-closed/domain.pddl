(define (domain t)
  (:predicates (p))
  (:action a
    :precondition (forall (?x (p))))
