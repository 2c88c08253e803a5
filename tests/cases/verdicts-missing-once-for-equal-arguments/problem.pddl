(define (problem cards-1) (:domain cards) (:objects ace king) (:init (face-up king)) (:goal ()))
