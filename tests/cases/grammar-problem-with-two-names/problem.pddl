(define (problem evening night)
  (:domain lamp)
  (:init (dark))
  (:goal (lit)))
