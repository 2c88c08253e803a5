(define (domain t) (:predicates (p) (q ?x)) (:functions (total-cost))
  (:action a :parameters (?x)
    :effect (when (p) (increase (total-cost) 1))))
