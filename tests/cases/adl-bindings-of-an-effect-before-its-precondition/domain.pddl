(define (domain room)
  (:types s - sup sup pair single none)
  (:predicates (p) (q ?x))
  (:action a
    :effect (forall (?z - single) (p))
    :precondition (exists (?a ?b ?c ?d ?e ?f - s) (p))))
