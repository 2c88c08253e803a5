(define (problem t-1) (:domain t) (:objects c) (:init (p c)) (:goal (p c)))
