(define (domain lamp)
  (:predicates (lit) (dark) hot)
  (:action light
    :precondition (dark)
    :effect (and (lit) (not (dark)))))
