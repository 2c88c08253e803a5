(define (domain shelf)
  (:predicates (clean ?x) (dry ?x)))
