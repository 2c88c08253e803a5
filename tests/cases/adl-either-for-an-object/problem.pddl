(define (problem t-1)
  (:domain t)
  (:objects h - (either u v))
  (:goal (p)))
