(define (domain ticks)
  (:predicates (done))
  (:functions (total-cost))
  (:action tick :effect (and (done) (increase (total-cost) 0.000000001))))
