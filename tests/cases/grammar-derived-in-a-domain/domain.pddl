(define (domain lamp)
  (:derived (lit) (dark))
  (:predicates (lit) (dark))
  (:action light
    :precondition (dark)
    :effect (and (lit) (not (dark)))))
