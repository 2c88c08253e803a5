(define (domain switch)
  (:predicates (on) (off) (hot))
  (:action press :precondition (on) :effect (on)))
