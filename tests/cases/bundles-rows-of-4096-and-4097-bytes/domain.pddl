(define (domain doors)
  (:requirements :strips :typing)
  (:types door key)
  (:predicates (open ?door - door) (shut ?door - door))
  (:action unlock
    :parameters (?door - door)
    :precondition (shut ?door)
    :effect (and (open ?door) (not (shut ?door))))
  (:action lock
    :parameters (?door - door)
    :precondition (open ?door)
    :effect (and (shut ?door) (not (open ?door)))))
