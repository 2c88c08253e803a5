(define (problem evening) (:domain lamp) (:goal (lit)))
