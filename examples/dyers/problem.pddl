(define (problem two-boxes)
  (:domain dyers)
  (:objects linen wool silk - cloth madder woad - dye big small - box)
  (:init
    (dry linen) (dry wool) (dry silk) (dyed wool madder)
    (in linen big) (in wool big) (in silk small))
  (:goal (forall (?b - box) (packed ?b))))
