(define (problem imply) (:domain bare) (:goal ()))
