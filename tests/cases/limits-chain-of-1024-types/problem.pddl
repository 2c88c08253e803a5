(define (problem many)
  (:domain many)
  (:objects a - t1 b)
  (:goal (seen a)))
