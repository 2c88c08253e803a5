(define (domain t)
  (:types u)
  (:predicates (p ?x - u) (q))
  (:functions (total-cost) - number (d ?x - u) - number)
  (:action a
    :parameters (?x - u)
    :effect (and (forall (?y - u) (p ?y))
      (increase (total-cost) (d ?y)))))
