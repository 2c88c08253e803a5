(define (domain lamp)
  (:requirements) (:requirements)
  (:predicates (lit) (dark))
  (:action light
    :precondition (dark)
    :effect (and (lit) (not (dark)))))
