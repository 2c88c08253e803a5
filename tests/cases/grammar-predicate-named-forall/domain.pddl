(define (domain lamp)
  (:predicates (lit) (dark) (forall))
  (:action light
    :precondition (dark)
    :effect (and (lit) (not (dark)))))
