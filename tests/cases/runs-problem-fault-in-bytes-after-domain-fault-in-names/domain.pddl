(define (domain lamp)
  (:predicates (lit) (dark))
  (:action light
    :precondition (drak)
    :effect (and (lit) (not (dark)))))
