(define (domain t)
  (:action a
    :precondition (forall ?x (when)))
  (:action b :effect ()))
