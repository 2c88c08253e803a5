(define (domain lamp)
  (:predicates (lit) (dark))
  (:action light
    :precondition (dark)
    :parameters (?x - (one-of object))
    :effect (and (lit) (not (dark)))))
