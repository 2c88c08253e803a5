(define (problem t-1) (:domain t)
  (:objects a b)
  (:init (here a) (here b))
  (:goal (not (lit))))
