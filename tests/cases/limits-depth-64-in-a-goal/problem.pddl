(define (problem evening)
  (:domain lamp)
  (:init (dark))
  (:goal (and (and (and (and (and (and (and (and (and (and (and (and (and (and (and (and (and (and (and (and (and (and (and (and (and (and (and (and (and (and (and (and (and (and (and (and (and (and (and (and (and (and (and (and (and (and (and (and (and (and (and (and (and (and (and (and (and (and (and (and (and (lit))))))))))))))))))))))))))))))))))))))))))))))))))))))))))))))))
