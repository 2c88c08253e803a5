(define (domain stack)
  (:predicates (on ?x ?y)))
