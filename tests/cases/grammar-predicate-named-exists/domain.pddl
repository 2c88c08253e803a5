(define (domain lamp)
  (:predicates (lit) (dark) (exists))
  (:action light
    :precondition (dark)
    :effect (and (lit) (not (dark)))))
