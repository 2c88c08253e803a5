(define (problem switch-1) (:domain switch) (:init ) (:goal (on)))
