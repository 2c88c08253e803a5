(define (domain lamp)
  (:predicates (lit) (dark))
  (:action light
    :precondition (not (lit) (dark))
    :effect (and (lit) (not (dark)))))
