(define (problem many)
  (:domain many)
  (:goal ()))
