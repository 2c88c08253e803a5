(define (problem t) (:domain ticks) (:goal (done)))
