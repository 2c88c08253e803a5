(define (domain lamp)
  (:predicates (lit) (dark))
  (:action light
    :precondition (dark)
    (lit)
    :effect (and (lit) (not (dark)))))
