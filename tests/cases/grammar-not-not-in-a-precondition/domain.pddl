(define (domain lamp)
  (:predicates (lit) (dark))
  (:action light
    :precondition (not (not (lit)))
    :effect (and (lit) (not (dark)))))
