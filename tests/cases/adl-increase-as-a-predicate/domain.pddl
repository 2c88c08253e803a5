(define (domain t)
  (:predicates (increase ?x) (q))
  (:action a
    :parameters (?x)
    :effect (forall (?y) (when (not (increase ?y)) (increase ?y)))))
