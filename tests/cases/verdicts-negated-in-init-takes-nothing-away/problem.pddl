(define (problem lamp-1) (:domain lamp) (:init (lit) (not (lit))) (:goal (lit)))
