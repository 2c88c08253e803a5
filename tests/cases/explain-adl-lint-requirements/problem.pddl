(define (problem t-1) (:domain t)
  (:objects c)
  (:init (p c) (q c))
  (:goal (q c)))
