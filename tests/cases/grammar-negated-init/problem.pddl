(define (problem evening)
  (:domain lamp)
  (:init (not (dark)))
  (:goal (lit)))
