(define (domain roads) (:predicates (at ?p)))
