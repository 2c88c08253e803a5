(define (domain bare))
(define (problem empty) (:domain bare) (:goal ()))
