(define (problem t-1)
  (:domain t)
  (:init (a))
  (:goal (a)))
