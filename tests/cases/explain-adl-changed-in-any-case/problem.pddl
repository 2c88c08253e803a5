(define (problem t-1) (:domain t)
  (:objects b)
  (:init (p a) (p b) (q a))
  (:goal (and (p a) (q a))))
