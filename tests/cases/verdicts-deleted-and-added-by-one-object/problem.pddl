(define (problem walk-1) (:domain walk) (:objects hall) (:init (at hall)) (:goal (at hall)))
