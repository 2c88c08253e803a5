(define (problem q) (:domain t) (:goal (p)))
