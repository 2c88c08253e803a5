(define (domain lamp)
  (:predicates (lit) (dark))
  (:action light
    :precondition (not ((lit)))
    :effect (and (lit) (not (dark)))))
