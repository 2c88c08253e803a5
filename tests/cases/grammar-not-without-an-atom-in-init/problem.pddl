(define (problem evening)
  (:domain lamp)
  (:init (dark) (not))
  (:goal (lit)))
