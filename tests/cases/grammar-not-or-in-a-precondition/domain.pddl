(define (domain lamp)
  (:predicates (lit) (dark))
  (:action light
    :precondition (not (or (lit)))
    :effect (and (lit) (not (dark)))))
