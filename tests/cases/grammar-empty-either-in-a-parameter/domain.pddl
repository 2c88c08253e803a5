(define (domain lamp)
  (:predicates (lit) (dark))
  (:action light
    :precondition (dark)
    :parameters (?x - (either))
    :effect (and (lit) (not (dark)))))
