(define (problem four-cars)
  (:domain ferry)
  (:objects red blue green white - car
            north south island - landing)
  (:init
    (moored north) (deck-free)
    (ashore red north) (ashore blue north) (ashore green south) (ashore white island))
  (:goal (and (ashore red south) (ashore blue island) (ashore green north) (ashore white north))))
