(define (domain lamp)
  (:types a - (either ?x (y)))
  (:predicates (lit) (dark))
  (:action light
    :precondition (dark)
    :effect (and (lit) (not (dark)))))
