(define (problem many)
  (:domain many)
  (:init (p1))
  (:goal (not (p4096))))
