(define (domain lamp)
  (:predicates (lit) (dark))
  (:action light
    :precondition (dark)
    :precondition dark
    :effect (and (lit) (not (dark)))))
