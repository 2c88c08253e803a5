(define (problem w) (:domain words) (:objects o) (:init (increase o)) (:goal (and (assign) (scale-up o o))))
