(define (problem BELLS-1) (:domain bells)
  (:objects Treble Tenor)
  (:goal (and (Rung
 Treble) (NOT (RUNG tenor)))))
