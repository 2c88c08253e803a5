(define (domain room)
  (:types s - sup sup pair single none)
  (:predicates (p) (q ?x))
  (:action a
    :parameters (?l)
    :precondition (exists (?a ?b ?c ?d ?e ?f ?g - s) (p))
    :effect ())
  (:action b
    :precondition (exists (?a ?b ?c ?d ?e ?f ?g - s) (p))))
