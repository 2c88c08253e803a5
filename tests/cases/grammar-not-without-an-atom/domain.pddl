(define (domain lamp)
  (:predicates (lit) (dark))
  (:action light
    :precondition (not)
    :effect (and (lit) (not (dark)))))
