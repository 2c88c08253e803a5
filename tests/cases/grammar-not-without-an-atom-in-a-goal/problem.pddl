(define (problem evening)
  (:domain lamp)
  (:init (dark))
  (:goal (and (lit) (not))))
