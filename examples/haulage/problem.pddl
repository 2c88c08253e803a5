; The direct road from ash to cedar is longer than the way by birch. Nobody has measured the road to dale.
(define (problem three-crates)
  (:domain haulage)
  (:objects ash birch cedar dale - town
            red - lorry
            c1 c2 c3 - crate
            none one two - level)
  (:init
    (at red ash) (room red two) (next none one) (next one two)
    (at c1 ash) (at c2 ash) (at c3 cedar)
    (road ash birch) (= (length ash birch) 12)
    (road birch ash) (= (length birch ash) 12)
    (road birch cedar) (= (length birch cedar) 7.5)
    (road cedar birch) (= (length cedar birch) 7.5)
    (road ash cedar) (= (length ash cedar) 25)
    (road cedar ash) (= (length cedar ash) 25)
    (road cedar dale) (road dale cedar)
    (= (total-cost) 0))
  (:goal (and (at c1 cedar) (at c2 cedar) (at c3 ash)))
  (:metric minimize (total-cost)))
