(define (domain room)
  (:types s - sup sup pair single none)
  (:predicates (p) (q ?x))
  (:action a
    :parameters (?l)
    :precondition ()
    :effect (forall (?a ?b ?c - s)
      (when (exists (?d ?e ?f - s) (p))
        (q ?a))))
  (:action b
    :precondition ()))
