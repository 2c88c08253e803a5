(define (domain lamp)
  (:constants a - (EITHER object b))
  (:predicates (lit) (dark))
  (:action light
    :precondition (dark)
    :effect (and (lit) (not (dark)))))
