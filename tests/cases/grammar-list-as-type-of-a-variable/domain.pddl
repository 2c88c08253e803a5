(define (domain lamp)
  (:predicates (lit) (dark) (hot ?x - (one-of object)))
  (:action light
    :precondition (dark)
    :effect (and (lit) (not (dark)))))
