(define (problem home-1) (:domain home) (:objects home) (:goal (at home)))
