(define (domain t) (:predicates (p)) (:action forall :effect (when (not (p)) (p))))
