; A postman's round: street by street, house by house.
(define (domain rounds)
  (:requirements :strips :typing)
  (:types house street)
  (:predicates
    (at ?h - house)
    (next-door ?h ?next - house)
    (first-of ?h - house ?s - street)
    (last-of ?h - house ?s - street)
    (leads-to ?s ?next - street)
    (letter-for ?h - house)
    (delivered ?h - house))

  (:action walk
    :parameters (?from ?to - house)
    :precondition (and (at ?from) (next-door ?from ?to))
    :effect (and (at ?to) (not (at ?from))))

  (:action cross
    :parameters (?from ?to - house ?s ?next - street)
    :precondition (and (at ?from) (last-of ?from ?s) (leads-to ?s ?next) (first-of ?to ?next))
    :effect (and (at ?to) (not (at ?from))))

  (:action deliver
    :parameters (?h - house)
    :precondition (and (at ?h) (letter-for ?h))
    :effect (and (delivered ?h) (not (letter-for ?h)))))
