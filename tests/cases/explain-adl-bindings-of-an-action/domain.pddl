(define (domain t) (:requirements :adl)
  (:predicates (p) (q ?x))
  (:action a
    :precondition (forall (?a ?b ?c ?d ?e ?f ?g) (q ?a))
    :effect (p)))
