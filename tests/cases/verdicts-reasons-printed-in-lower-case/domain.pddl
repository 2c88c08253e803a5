(define (domain bells)
  (:requirements :strips :typing)
  (:types bell hand)
  (:constants treble tenor - bell left - hand)
  (:predicates (rung ?bell - bell) (free ?hand - hand))
  (:action ring
    :parameters (?hand - hand ?first - bell ?second - bell)
    :precondition (free ?hand)
    :effect (and (rung ?first) (rung ?second))))
