(define (problem lamp-1) (:domain lamp) (:goal (lit)))
