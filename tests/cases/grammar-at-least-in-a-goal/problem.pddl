(define (problem evening)
  (:domain lamp)
  (:init (dark))
  (:goal (>= (heat) 3)))
