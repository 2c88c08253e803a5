(define (problem bell-1) (:domain bell) (:objects ann bob tim) (:goal (rung)))
