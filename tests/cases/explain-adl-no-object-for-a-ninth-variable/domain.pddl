(define (domain t)
  (:requirements :adl)
  (:types s none)
  (:predicates (p) (q ?x - s))
  (:action all
    :precondition (forall (?a ?b ?c ?d ?e ?f ?g ?h - s ?n - none) (or))
    :effect (forall (?a ?b ?c ?d ?e ?f ?g ?h - s ?n - none) (when (q ?a) (not (q ?a)))))
  (:action some
    :precondition (exists (?a ?b ?c ?d ?e ?f ?g ?h - s ?n - none) (and))
    :effect (p)))
