(define (problem evening)
  (:domain)
  (:init (dark))
  (:goal (lit)))
