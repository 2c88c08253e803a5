(define (domain lamp)
  (:predicates (lit) (dark))
  (:action light
    :precondition (and (lit) (not (lit)))
    :effect (and (lit) (not (dark)))))
