(define (problem t-1) (:domain t) (:objects c d)
  (:init (forall (?x) (q ?x)))
  (:goal (p)))
