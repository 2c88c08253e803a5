(define (domain many)
  (:predicates (seen ?x))
  (:action see :parameters (?x) :effect (seen ?x)))
