(define (problem evening)
  (:domain lamp)
  (:init )
  (:goal (lit)))
