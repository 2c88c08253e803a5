(define (problem empty) (:domain bare) (:goal ()))
