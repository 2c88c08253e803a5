(define (domain doors)
  (:predicates (open ?x) (seen ?x))
  (:action look
    :parameters (?x)
    :precondition ()
    :effect (when (open ?x) (seen ?x)))
  (:action pull
    :parameters ()
    :precondition ()
    :effect (forall (?x) (when (not (seen ?x)) (and (open ?x))))))
