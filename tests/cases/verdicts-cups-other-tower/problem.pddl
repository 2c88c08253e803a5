(define (problem cups-1) (:domain cups)
  (:objects red green blue)
  (:init (down red) (on blue red) (clear blue) (down green) (clear green))
  (:goal (and (on red green) (on green blue))))
