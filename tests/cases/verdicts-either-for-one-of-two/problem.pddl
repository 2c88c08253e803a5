(define (problem paint-1) (:domain paint)
  (:objects b - brush r - roller s - spray t - tool)
  (:goal (painted)))
