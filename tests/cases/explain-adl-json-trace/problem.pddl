(define (problem t-1) (:domain t)
  (:objects a b)
  (:init (p a) (p b) (r))
  (:goal (and)))
