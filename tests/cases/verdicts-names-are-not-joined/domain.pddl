(define (domain ropes)
  (:predicates (tied ?x ?y))
  (:action tie :parameters (?x ?y) :effect (tied ?x ?y)))
