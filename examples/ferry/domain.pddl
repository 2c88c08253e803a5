; A ferry that takes one car at a time from one landing to another.
(define (domain ferry)
  (:requirements :strips :typing)
  (:types car landing)
  (:predicates
    (moored ?l - landing)
    (ashore ?c - car ?l - landing)
    (aboard ?c - car)
    (deck-free))

  (:action sail
    :parameters (?from ?to - landing)
    :precondition (moored ?from)
    :effect (and (moored ?to) (not (moored ?from))))

  (:action embark
    :parameters (?c - car ?l - landing)
    :precondition (and (moored ?l) (ashore ?c ?l) (deck-free))
    :effect (and (aboard ?c) (not (ashore ?c ?l)) (not (deck-free))))

  (:action debark
    :parameters (?c - car ?l - landing)
    :precondition (and (moored ?l) (aboard ?c))
    :effect (and (ashore ?c ?l) (deck-free) (not (aboard ?c)))))
