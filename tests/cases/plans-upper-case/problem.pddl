(define (problem bells-1) (:domain bells)
  (:objects treble tenor)
  (:goal (rung treble)))
