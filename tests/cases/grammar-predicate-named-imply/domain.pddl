(define (domain lamp)
  (:predicates (lit) (dark) (imply))
  (:action light
    :precondition (dark)
    :effect (and (lit) (not (dark)))))
