(define (domain lamp)
  (:predicates (lit) (dark))
  (:action light
    :precondition (not (and (lit)))
    :effect (and (lit) (not (dark)))))
