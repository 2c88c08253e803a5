(define (domain home)
  (:constants kitchen)
  (:predicates (at ?x ?room))
  (:action cook :parameters (?x) :precondition (at ?x kitchen)))
