(define (problem lamp-1) (:domain lamp)
  (:init (drak)) (:goal (lit)))
