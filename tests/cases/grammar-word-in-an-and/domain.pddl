(define (domain lamp)
  (:predicates (lit) (dark))
  (:action light
    :precondition (and (dark) lit)
    :effect (and (lit) (not (dark)))))
