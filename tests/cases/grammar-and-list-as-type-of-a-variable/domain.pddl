(define (domain lamp)
  (:predicates (lit) (dark) (hot ?x - (and object)))
  (:action light
    :precondition (dark)
    :effect (and (lit) (not (dark)))))
