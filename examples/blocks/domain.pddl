; Blocks that a crane moves one at a time. A block stands on the floor or on another block, and carries one block at most.
(define (domain blocks)
  (:requirements :strips :typing)
  (:types block)
  (:predicates
    (on ?upper ?lower - block)
    (on-floor ?b - block)
    (bare ?b - block)           ; nothing stands on it
    (hooked ?b - block)         ; the crane holds it
    (crane-free))

  (:action lift
    :parameters (?b - block)
    :precondition (and (crane-free) (on-floor ?b) (bare ?b))
    :effect (and (hooked ?b) (not (crane-free)) (not (on-floor ?b)) (not (bare ?b))))

  (:action lower
    :parameters (?b - block)
    :precondition (hooked ?b)
    :effect (and (on-floor ?b) (bare ?b) (crane-free) (not (hooked ?b))))

  (:action unstack
    :parameters (?upper ?lower - block)
    :precondition (and (crane-free) (on ?upper ?lower) (bare ?upper))
    :effect (and (hooked ?upper) (bare ?lower) (not (crane-free)) (not (on ?upper ?lower)) (not (bare ?upper))))

  (:action stack
    :parameters (?upper ?lower - block)
    :precondition (and (hooked ?upper) (bare ?lower))
    :effect (and (on ?upper ?lower) (bare ?upper) (crane-free) (not (hooked ?upper)) (not (bare ?lower)))))
