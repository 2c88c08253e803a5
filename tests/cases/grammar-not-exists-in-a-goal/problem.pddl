(define (problem evening)
  (:domain lamp)
  (:init (dark))
  (:goal (and (not (exists (?x) (dark))))))
