(define (domain lamp)
  (:predicates (lit) (dark))
  (:action light
    :precondition (dark)
    :parameters (- object)
    :effect (and (lit) (not (dark)))))
