(define (domain room)
  (:types s - sup sup pair single none)
  (:predicates (p) (q ?x))
  (:action a
    :parameters (?l)
    :precondition (exists (?a ?b ?c ?d ?e - s ?f ?g ?h - pair) (p))
    :effect (when (or) (forall (?a ?b ?c ?d ?e - s ?f ?g ?h - pair) (q ?a))))
  (:action b
    :precondition ()))
