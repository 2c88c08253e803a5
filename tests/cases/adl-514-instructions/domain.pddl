(define (domain t)
  (:requirements :adl)
  (:predicates (on ?x))
  (:action swap
    :effect (forall (?x) (and (when (on ?x) (not (on ?x))) (when (not (on ?x)) (on ?x))))))
