(define (problem evening)
  (:domain lamp)
  (:init (dark) (= (total-cost) 0))
  (:goal (lit)))
