(define (domain lamp)
  (:predicates (lit) (dark) (hot ?x - ((either object))))
  (:action light
    :precondition (dark)
    :effect (and (lit) (not (dark)))))
