(define (problem q) (:domain c) (:objects x y z - place)
  (:init (at x) (= (d x y) 2) (= (d y z) 0.25) (= (total-cost) 0)) (:goal (at z)) (:metric minimize (total-cost)))
