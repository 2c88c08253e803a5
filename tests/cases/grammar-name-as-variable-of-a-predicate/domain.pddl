(define (domain lamp)
  (:predicates (lit) (dark) (hot x))
  (:action light
    :precondition (dark)
    :effect (and (lit) (not (dark)))))
