(define (domain lamp)
  (:requirements :strips :adl :durative-actions :no-such-thing :strips)
  (:predicates (lit) (dark))
  (:action light
    :precondition (dark)
    :effect (and (lit) (not (dark)))))
