(define (domain tidepool)
  (:requirements :strips :typing :action-costs)
  (:types pool)
  (:predicates (gull-at ?p - pool) (channel ?a ?b - pool) (ledge ?a ?b - pool) (snail ?p - pool) (eaten ?p - pool))
  (:functions (depth ?a ?b - pool) (total-cost) - number)
  (:action wade
    :parameters (?from ?to - pool)
    :precondition (and (gull-at ?from) (channel ?from ?to))
    :effect (and (not (gull-at ?from)) (gull-at ?to) (increase (total-cost) (depth ?from ?to))))
  (:action hop
    :parameters (?from ?to - pool)
    :precondition (and (gull-at ?from) (ledge ?from ?to))
    :effect (and (not (gull-at ?from)) (gull-at ?to)))
  (:action eat
    :parameters (?p - pool)
    :precondition (and (gull-at ?p) (snail ?p))
    :effect (and (eaten ?p) (not (snail ?p)))))
