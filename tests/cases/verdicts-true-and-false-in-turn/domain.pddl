(define (domain switch)
  (:predicates (on) (off) (hot))
  (:action press :precondition (not (on)) :effect (on))
  (:action release :precondition (on) :effect (not (on))))
