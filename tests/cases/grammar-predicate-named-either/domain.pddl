(define (domain lamp)
  (:predicates (lit) (dark) (either))
  (:action light
    :precondition (dark)
    :effect (and (lit) (not (dark)))))
