(define (domain orchard)
  (:requirements :strips :typing :action-costs)
  (:types tree)
  (:predicates (path ?from ?to - tree) (picker-at ?t - tree) (ripe ?t - tree) (picked ?t - tree))
  (:functions (paces ?from ?to - tree) (total-cost) - number)
  (:action walk
    :parameters (?from ?to - tree)
    :precondition (and (picker-at ?from) (path ?from ?to))
    :effect (and (not (picker-at ?from)) (picker-at ?to) (increase (total-cost) (paces ?from ?to))))
  (:action pick
    :parameters (?t - tree)
    :precondition (and (picker-at ?t) (ripe ?t))
    :effect (and (picked ?t) (not (ripe ?t)) (increase (total-cost) 2))))
