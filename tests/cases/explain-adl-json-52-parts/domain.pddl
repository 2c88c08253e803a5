(define (domain t) (:requirements :adl) (:predicates (p ?x)))
