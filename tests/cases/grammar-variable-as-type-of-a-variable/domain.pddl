(define (domain lamp)
  (:predicates (lit) (dark) (hot ?x - ?y))
  (:action light
    :precondition (dark)
    :effect (and (lit) (not (dark)))))
