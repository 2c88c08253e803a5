(define (domain lamp)
  (:predicates (lit) (dark) (or))
  (:action light
    :precondition (dark)
    :effect (and (lit) (not (dark)))))
