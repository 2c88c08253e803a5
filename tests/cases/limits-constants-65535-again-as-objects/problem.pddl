(define (problem many)
  (:domain many)
  (:objects c1 C65535)
  (:goal ()))
