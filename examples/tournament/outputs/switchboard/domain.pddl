(define (domain switchboard)
  (:requirements :strips :typing :negative-preconditions)
  (:types wire)
  (:predicates (live ?w - wire) (next ?a ?b - wire) (jammed ?w - wire))
  (:action patch
    :parameters (?a ?b - wire)
    :precondition (and (live ?a) (next ?a ?b) (not (live ?b)) (not (jammed ?b)))
    :effect (live ?b))
  (:action free
    :parameters (?w - wire)
    :precondition (jammed ?w)
    :effect (not (jammed ?w)))
  (:action cut
    :parameters (?w - wire)
    :precondition (live ?w)
    :effect (not (live ?w))))
