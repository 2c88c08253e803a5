(define (domain door)
  (:types door)
  (:predicates (door ?door - door))
  (:action door :parameters (?door - door) :effect (door ?door)))
