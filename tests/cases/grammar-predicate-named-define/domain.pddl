(define (domain bare) (:predicates (define) (domain) (object)))
