(define (domain room)
  (:types s - sup sup pair single none)
  (:predicates (p) (q ?x))
  (:action a
    :parameters (?l)
    :precondition ()
    :effect (forall (?a ?b ?c ?d ?e ?f ?g - s)
      (q ?a)))
  (:action b
    :precondition ()))
