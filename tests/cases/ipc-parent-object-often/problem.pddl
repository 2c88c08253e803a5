(define (problem one) (:domain kinds) (:objects o - low) (:init (at o)) (:goal (done)))
