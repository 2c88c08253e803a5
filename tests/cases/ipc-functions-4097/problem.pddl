(define (problem many)
  (:domain many)
  (:init (= (f4095) 7))
  (:goal (p)))
