(define (problem lamp-1)
  (:domain lamp)
  (:objects hall - hose)
  (:goal (lit hall)))
