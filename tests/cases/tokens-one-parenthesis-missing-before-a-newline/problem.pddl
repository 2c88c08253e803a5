(define (problem evening)
  (:domain lamp)
  (:init (dark))
  (:goal (lit)))
