(define (domain lamp)
  (:predicates (lit) (dark))
  (:action light
    :precondition (not (> (heat) 3))
    :effect (and (lit) (not (dark)))))
