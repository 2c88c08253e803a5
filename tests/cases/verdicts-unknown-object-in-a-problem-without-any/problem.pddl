(define (problem bells-1) (:domain bells) (:goal ()))
