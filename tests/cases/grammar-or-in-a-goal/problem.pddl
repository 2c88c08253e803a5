(define (problem evening)
  (:domain lamp)
  (:init (dark))
  (:goal (or (lit) (dark))))
