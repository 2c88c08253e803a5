(define (problem bells-1) (:domain bells)
  (:goal (rung treble)))
