(define (problem evening)
  (:domain lamp)
  (:init (not (not (dark))))
  (:goal (lit)))
