(define (domain lamp)
  (:predicates (lit) (dark) (AND))
  (:action light
    :precondition (dark)
    :effect (and (lit) (not (dark)))))
