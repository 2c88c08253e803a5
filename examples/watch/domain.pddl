; A guard's last round through a museum: what is lit has to be dark afterwards, and what is open has to be shut.
(define (domain watch)
  (:requirements :strips :typing :negative-preconditions)
  (:types room door)
  (:predicates
    (guard-in ?r - room)
    (joins ?d - door ?one ?other - room)
    (open ?d - door)
    (lit ?r - room)
    (armed ?r - room))          ; its alarm is on: nobody may be in it

  (:action go
    :parameters (?from ?to - room ?d - door)
    :precondition (and (guard-in ?from) (joins ?d ?from ?to) (open ?d) (not (armed ?to)))
    :effect (and (guard-in ?to) (not (guard-in ?from))))

  (:action open-door
    :parameters (?d - door ?here ?there - room)
    :precondition (and (guard-in ?here) (joins ?d ?here ?there) (not (open ?d)))
    :effect (open ?d))

  (:action shut-door
    :parameters (?d - door ?here ?there - room)
    :precondition (and (guard-in ?here) (joins ?d ?here ?there) (open ?d))
    :effect (not (open ?d)))

  (:action light
    :parameters (?r - room)
    :precondition (and (guard-in ?r) (not (lit ?r)))
    :effect (lit ?r))

  (:action darken
    :parameters (?r - room)
    :precondition (and (guard-in ?r) (lit ?r))
    :effect (not (lit ?r)))

  (:action arm
    :parameters (?r ?from - room ?d - door)
    :precondition (and (joins ?d ?from ?r) (guard-in ?from) (not (guard-in ?r)) (not (open ?d)) (not (lit ?r)) (not (armed ?r)))
    :effect (armed ?r)))
