(define (problem empty) (:domain or) (:goal ()))
