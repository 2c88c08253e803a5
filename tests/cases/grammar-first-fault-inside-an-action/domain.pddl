(define (domain lamp)
  (:predicates (lit) (dark))
  (:action light
    :effect lit
    :precondition dark))
