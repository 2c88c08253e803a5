(define (domain lamp)
  (:predicates (lit) (dark))
  (:action light
    :precondition (either)
    :effect (and (lit) (not (dark)))))
