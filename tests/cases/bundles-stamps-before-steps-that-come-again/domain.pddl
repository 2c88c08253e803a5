(define (domain doors)
  (:predicates (open ?door) (shut ?door))
  (:action unlock
    :parameters (?door)
    :precondition (shut ?door)
    :effect (and (open ?door) (not (shut ?door))))
  (:action lock
    :parameters (?door)
    :precondition (open ?door)
    :effect (and (shut ?door) (not (open ?door)))))
