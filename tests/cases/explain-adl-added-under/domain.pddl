(define (domain t) (:requirements :adl)
  (:predicates (here ?x) (lit))
  (:action light
    :effect (forall (?x) (when (here ?x) (when (exists (?y) (and (here ?y) (not (= ?y ?x)))) (lit))))))
