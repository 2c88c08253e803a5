(define (problem home-1) (:domain home) (:objects ann) (:goal ()))
