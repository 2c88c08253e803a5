(define (domain lamp)
  (:predicates (lit) (dark))
  (:action light
    :precondition (dark)
    fast
    :effect (and (lit) (not (dark)))))
