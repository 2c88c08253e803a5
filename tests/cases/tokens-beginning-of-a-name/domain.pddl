(define (domain lamp)
  (:predicates (lit) (dark))
  (:action light
    :precondition (dar)
    :effect (and (lit) (not (dark)))))
