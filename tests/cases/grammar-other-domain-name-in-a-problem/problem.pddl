(define (problem evening)
  (:domain candle)
  (:init (dark))
  (:goal (lit)))
