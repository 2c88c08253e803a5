; Six towers of four blocks, of which four towers of six are to be made.
(define (problem six-towers)
  (:domain blocks)
  (:objects
    b1 b2 b3 b4 b5 b6 b7 b8 b9 b10 b11 b12 b13 b14 b15 b16 b17 b18 b19 b20 b21 b22 b23 b24 - block)
  (:init
    (crane-free) (on-floor b1) (on b2 b1) (on b3 b2) (on b4 b3) (bare b4) (on-floor b5) (on b6 b5) (on b7 b6)
    (on b8 b7) (bare b8) (on-floor b9) (on b10 b9) (on b11 b10) (on b12 b11) (bare b12) (on-floor b13)
    (on b14 b13) (on b15 b14) (on b16 b15) (bare b16) (on-floor b17) (on b18 b17) (on b19 b18) (on b20 b19)
    (bare b20) (on-floor b21) (on b22 b21) (on b23 b22) (on b24 b23) (bare b24))
  (:goal (and
    (on b5 b1) (on b9 b5) (on b13 b9) (on b17 b13) (on b21 b17) (on b6 b2) (on b10 b6) (on b14 b10)
    (on b18 b14) (on b22 b18) (on b7 b3) (on b11 b7) (on b15 b11) (on b19 b15) (on b23 b19) (on b8 b4)
    (on b12 b8) (on b16 b12) (on b20 b16) (on b24 b20))))
