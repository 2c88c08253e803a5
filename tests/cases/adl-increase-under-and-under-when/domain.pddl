(define (domain t)
  (:types u)
  (:predicates (p ?x - u) (q))
  (:functions (total-cost) - number (d ?x - u) - number)
  (:action a
    :parameters (?x - u)
    :effect (and (increase (total-cost) 1)
      (when (q) (and (p ?x) (increase (total-cost) 1))))))
