(define (problem evening)
  (:domain lamp)
  (:init (when (lit) (dark)))
  (:goal (lit)))
