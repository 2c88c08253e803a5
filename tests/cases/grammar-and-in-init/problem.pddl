(define (problem evening)
  (:domain lamp)
  (:init (and (dark)))
  (:goal (lit)))
