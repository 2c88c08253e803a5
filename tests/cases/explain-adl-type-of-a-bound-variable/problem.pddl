(define (problem t-1) (:domain t) (:objects c d) (:goal (p)))
