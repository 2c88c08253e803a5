; A visitor walks through a museum. A door costs 1, looking around costs nothing.
(define (domain museum)
  (:requirements :strips :typing :action-costs)
  (:types room)
  (:predicates (in ?r - room) (door ?from ?to - room) (seen ?r - room))
  (:functions (total-cost) - number)
  (:action walk
    :parameters (?from ?to - room)
    :precondition (and (in ?from) (door ?from ?to))
    :effect (and (not (in ?from)) (in ?to) (increase (total-cost) 1)))
  (:action look
    :parameters (?r - room)
    :precondition (in ?r)
    :effect (seen ?r)))
