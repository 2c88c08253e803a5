(define (problem lamp-1) (:domain lamp) (:init ) (:goal (lit)))
