(define (problem t-1) (:domain t)
  (:objects o1 o2 o3 o4 o5 o6 o7 o8 o9 o10 o11 o12 o13 o14 o15 o16)
  (:goal (p)))
