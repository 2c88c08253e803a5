(define (problem evening)
  (:domain lamp)
  (:init (dark))) x
