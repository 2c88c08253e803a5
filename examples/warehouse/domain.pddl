; Robots carry racks over the cells of a warehouse's floor. A robot without a rack may pass below racks; one with a rack may not.
(define (domain warehouse)
  (:requirements :strips :typing)
  (:types robot rack cell)
  (:predicates
    (robot-at ?r - robot ?c - cell)
    (rack-at ?k - rack ?c - cell)
    (borders ?from ?to - cell)
    (no-robot ?c - cell)
    (no-rack ?c - cell)
    (bears ?r - robot ?k - rack)
    (unladen ?r - robot)
    (served ?k - rack)
    (picking-place ?c - cell))

  (:action move
    :parameters (?r - robot ?from ?to - cell)
    :precondition (and (robot-at ?r ?from) (borders ?from ?to) (no-robot ?to) (unladen ?r))
    :effect (and (robot-at ?r ?to) (no-robot ?from) (not (robot-at ?r ?from)) (not (no-robot ?to))))

  (:action carry
    :parameters (?r - robot ?k - rack ?from ?to - cell)
    :precondition (and (robot-at ?r ?from) (bears ?r ?k) (borders ?from ?to) (no-robot ?to) (no-rack ?to))
    :effect (and
      (robot-at ?r ?to) (no-robot ?from) (not (robot-at ?r ?from)) (not (no-robot ?to))
      (rack-at ?k ?to) (no-rack ?from) (not (rack-at ?k ?from)) (not (no-rack ?to))))

  (:action raise
    :parameters (?r - robot ?k - rack ?c - cell)
    :precondition (and (robot-at ?r ?c) (rack-at ?k ?c) (unladen ?r))
    :effect (and (bears ?r ?k) (not (unladen ?r))))

  (:action settle
    :parameters (?r - robot ?k - rack ?c - cell)
    :precondition (and (robot-at ?r ?c) (bears ?r ?k))
    :effect (and (unladen ?r) (not (bears ?r ?k))))

  (:action pick
    :parameters (?r - robot ?k - rack ?c - cell)
    :precondition (and (robot-at ?r ?c) (bears ?r ?k) (picking-place ?c))
    :effect (served ?k)))
