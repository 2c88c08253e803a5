(define (problem =)
  (:domain lamp)
  (:init (dark))
  (:goal (lit)))
