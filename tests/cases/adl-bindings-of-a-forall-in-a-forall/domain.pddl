(define (domain room)
  (:types s - sup sup pair single none)
  (:predicates (p) (q ?x))
  (:action a
    :parameters (?l)
    :precondition ()
    :effect (forall (?a ?b ?c - s) (and (q ?a)
      (forall (?d ?e ?f - s) (q ?d)))))
  (:action b
    :precondition ()))
