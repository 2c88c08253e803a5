(define (domain lamp) (:predicates (lit)) (:action light :effect (lit)))
