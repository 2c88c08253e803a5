(define (domain lamp)
  (:predicates (lit) (dark))
  (:action light
    :precondition (and (dark))
    :effect (and (lit) (not (dark)))))
