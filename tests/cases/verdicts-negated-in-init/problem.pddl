(define (problem lamp-1) (:domain lamp) (:init (not (lit)) (dark)) (:goal (lit)))
