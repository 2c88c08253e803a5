(define (domain t)
  (:types u)
  (:predicates (p ?x - u) (q))
  (:functions (total-cost) - number (d ?x - u) - number)
  (:action a
    :parameters (?x - u)
    :effect (when (q)
      (decrease (total-cost) 1))))
