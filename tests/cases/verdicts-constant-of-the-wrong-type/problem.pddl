(define (problem home-1) (:domain home) (:goal (at home)))
