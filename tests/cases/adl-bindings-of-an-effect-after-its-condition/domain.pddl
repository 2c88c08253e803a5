(define (domain room)
  (:types s - sup sup pair single none)
  (:predicates (p) (q ?x))
  (:action a
    :parameters (?l)
    :precondition ()
    :effect (when (exists (?a ?b ?c ?d ?e ?f - s) (p))
      (forall (?z - single) (q ?z))))
  (:action b
    :precondition ()))
