(define (problem evening)
  (:domain lamp)
  (:init (dark) (dark))
  (:goal (lit)))
