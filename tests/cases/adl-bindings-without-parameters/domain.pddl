(define (domain room)
  (:types s - sup sup pair single none)
  (:predicates (p) (q ?x))
  (:action a
    :parameters (?l ?u ?v ?w - s)
    :precondition (exists (?a ?b ?c ?d ?e ?f - s) (p))
    :effect ())
  (:action b
    :precondition ()))
