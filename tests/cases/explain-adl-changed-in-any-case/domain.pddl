(define (domain t) (:requirements :adl)
  (:constants a)
  (:predicates (p ?x) (q ?x))
  (:action clear
    :effect (and (forall (?x) (not (p ?x))) (when (q a) (not (q a))) (not (q a)))))
