(define ()
  (:domain lamp)
  (:init (dark))
  (:goal (lit)))
