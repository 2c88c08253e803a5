(define (problem evening)
  (:domain lamp)
  (:init (not (< (heat) 3)))
  (:goal (lit)))
