(define (problem evening)
  (:domain lamp)
  (:init (broken)))
