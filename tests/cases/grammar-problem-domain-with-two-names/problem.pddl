(define (problem evening)
  (:domain lamp bulb)
  (:init (dark))
  (:goal (lit)))
