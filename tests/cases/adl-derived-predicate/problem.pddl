(define (problem q) (:domain t) (:goal ()))
