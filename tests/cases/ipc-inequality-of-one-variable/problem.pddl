(define (problem two) (:domain pairs) (:objects o u - thing saw - tool) (:init (seen o)) (:goal (done)))
