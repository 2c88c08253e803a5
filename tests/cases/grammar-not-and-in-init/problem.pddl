(define (problem evening)
  (:domain lamp)
  (:init (not (and)))
  (:goal (lit)))
