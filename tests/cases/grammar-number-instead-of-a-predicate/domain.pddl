(define (domain lamp)
  (:predicates (lit) (dark))
  (:action light
    :precondition (1)
    :effect (and (lit) (not (dark)))))
