(define (problem many)
  (:domain many)
  (:objects c1 lamp)
  (:goal ()))
