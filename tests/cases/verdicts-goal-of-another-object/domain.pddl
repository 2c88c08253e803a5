(define (domain bells)
  (:predicates (rung ?bell))
  (:action ring :parameters (?bell) :effect (rung ?bell)))
