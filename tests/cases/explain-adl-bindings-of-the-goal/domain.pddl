(define (domain t) (:requirements :adl) (:predicates (q ?x)))
