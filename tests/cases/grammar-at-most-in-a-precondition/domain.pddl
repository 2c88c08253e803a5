(define (domain lamp)
  (:predicates (lit) (dark))
  (:action light
    :precondition (and (<= (heat) 3) (dark))
    :effect (and (lit) (not (dark)))))
