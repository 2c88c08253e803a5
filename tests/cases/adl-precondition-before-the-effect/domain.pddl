(define (domain t)
  (:predicates (p))
  (:action a
    :effect (when (nope) (p))
    :precondition (or (nix))))
