(define (problem evening)
  (:domain lamp)
  (:init (dark) (not (dark)))
  (:goal (lit)))
