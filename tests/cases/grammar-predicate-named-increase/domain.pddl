(define (domain lamp)
  (:predicates (lit) (dark) (increase))
  (:action light
    :precondition (dark)
    :effect (and (lit) (increase))))
