(define (domain lamp)
  (:predicates (lit) (dark) (hot ?x - (either)))
  (:action light
    :precondition (dark)
    :effect (and (lit) (not (dark)))))
