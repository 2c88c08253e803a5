(define (problem lamp) (:domain lamp) (:init (dark)) (:goal (lit)))
