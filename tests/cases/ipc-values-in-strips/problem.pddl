(define (problem trip) (:domain roads) (:init (= (total-cost) 0)) (:goal ()))
