(define (domain lamp)
  (:requirements strips)
  (:requirements)
  (:predicates (lit) (dark))
  (:action light
    :precondition (dark)
    :effect (and (lit) (not (dark)))))
