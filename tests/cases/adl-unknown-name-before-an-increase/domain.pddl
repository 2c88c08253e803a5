(define (domain t)
  (:types u)
  (:predicates (p ?x - u) (q))
  (:functions (total-cost) - number (d ?x - u) - number)
  (:action a
    :parameters (?x - u)
    :effect (and (when (r) (q))
      (increase (total-cost) (e ?x)))))
