(define (problem evening)
  (:init (dark))
  (:goal (lit)))
