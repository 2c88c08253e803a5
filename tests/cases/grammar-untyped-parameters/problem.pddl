(define (problem hall) (:domain lamps) (:objects red green) (:goal (lit green)))
