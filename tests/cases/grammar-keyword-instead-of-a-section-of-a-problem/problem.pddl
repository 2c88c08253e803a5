(define (problem evening)
  (:domain lamp)
  (:init (dark))
  :objects
  (:goal (lit)))
