(define (problem lamp-1) (:domain candle) (:init (dark)) (:goal (lit)))
