(define (domain lamp)
  (:predicates (lit) (dark) (when))
  (:action light
    :precondition (dark)
    :effect (and (lit) (not (dark)))))
