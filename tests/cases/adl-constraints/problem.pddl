(define (problem t-1)
  (:domain t)
  (:goal (p))
  (:constraints (and)))
