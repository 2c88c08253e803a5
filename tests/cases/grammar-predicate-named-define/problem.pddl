(define (problem empty) (:domain bare) (:init (define) (domain)) (:goal (and (define) (domain) (object))))
