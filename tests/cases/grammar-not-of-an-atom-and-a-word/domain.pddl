(define (domain lamp)
  (:predicates (lit) (dark))
  (:action light
    :precondition (not (lit) x)
    :effect (and (lit) (not (dark)))))
