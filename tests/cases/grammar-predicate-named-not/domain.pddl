(define (domain lamp)
  (:predicates (lit) (dark) (not ?x))
  (:action light
    :precondition (dark)
    :effect (and (lit) (not (dark)))))
