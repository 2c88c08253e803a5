(define (domain ticks)
  (:predicates (done))
  (:functions (total-cost))
  (:action tick :effect (and (done) (increase (total-cost) 999999999.999999999))))
