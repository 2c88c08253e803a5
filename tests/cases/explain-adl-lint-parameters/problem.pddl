(define (problem t-1) (:domain t) (:objects c) (:init (p c c)) (:goal (p c c)))
