(define (problem Lamp-1) (:domain lamp) (:init (dark)) (:goal (lit)))
