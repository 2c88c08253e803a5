(define (domain switch)
  (:predicates (on) (off) (hot))
  (:action wait :precondition (on) :effect ()))
