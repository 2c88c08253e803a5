(define (problem cups-1) (:domain cups)
  (:objects red) (:init (down red) (clear red))
  (:goal (on red red)))
