; Telescopes take pictures of what is in the sky, through filters. Turning to where a telescope aims already is no step.
; comet is declared under object and under target, as some well-known domains do.
(define (domain telescopes)
  (:requirements :strips :typing :equality)
  (:types telescope filter target - object
          star comet - target
          comet - object)
  (:constants clear - filter)
  (:predicates
    (aims ?t - telescope ?s - target)
    (fitted ?t - telescope ?f - filter)
    (picture ?s - target ?f - filter))
  (:action turn
    :parameters (?t - telescope ?from ?to - target)
    :precondition (and (aims ?t ?from) (not (= ?from ?to)))
    :effect (and (not (aims ?t ?from)) (aims ?t ?to)))
  (:action change
    :parameters (?t - telescope ?old ?new - filter)
    :precondition (and (not (= ?old ?new)) (fitted ?t ?old))
    :effect (and (not (fitted ?t ?old)) (fitted ?t ?new)))
  (:action remove
    :parameters (?t - telescope ?old - filter)
    :precondition (and (fitted ?t ?old) (not (= ?old clear)))
    :effect (and (not (fitted ?t ?old)) (fitted ?t clear)))
  (:action expose
    :parameters (?t - telescope ?s - target ?f - filter)
    :precondition (and (aims ?t ?s) (fitted ?t ?f))
    :effect (picture ?s ?f)))
