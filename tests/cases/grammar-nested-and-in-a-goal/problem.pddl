(define (problem evening)
  (:domain lamp)
  (:init (dark))
  (:goal (and (and (lit) ()) (and (and (not (dark)))))))
