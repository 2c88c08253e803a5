(define (problem many)
  (:domain many)
  (:objects a - t1 b - t32)
  (:goal ()))
