(define (problem evening)
  (:domain lamp)
  (:init (dark))
  lit
  (:goal (lit)))
