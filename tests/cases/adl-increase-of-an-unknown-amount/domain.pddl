(define (domain t)
  (:types u)
  (:predicates (p ?x - u) (q))
  (:functions (total-cost) - number (d ?x - u) - number)
  (:action a
    :parameters (?x - u)
    :effect (and (when (q) (p ?x))
      (increase (total-cost) (e ?x))
      (when (r) (q)))))
