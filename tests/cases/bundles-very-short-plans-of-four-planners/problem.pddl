(define (problem bell-1) (:domain bell) (:goal (rung)))
