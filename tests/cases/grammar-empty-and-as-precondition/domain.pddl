(define (domain lamp)
  (:predicates (lit) (dark))
  (:action light
    :precondition (and)
    :effect (and (lit) (not (dark)))))
