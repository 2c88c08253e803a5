(define (problem switch-1) (:domain switch) (:init (on)) (:goal (on)))
