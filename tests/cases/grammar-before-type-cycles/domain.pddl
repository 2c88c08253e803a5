(define (domain lamp)
  (:types bulb - bulb) lit
  (:predicates (lit) (dark))
  (:action light
    :precondition (dark)
    :effect (and (lit) (not (dark)))))
