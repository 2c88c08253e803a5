; Lorries bring crates from town to town. A road costs its length, and a crate costs 1 to load and 1 to unload.
; A lorry has room for as many crates as its level says.
(define (domain haulage)
  (:requirements :strips :typing :action-costs)
  (:types town thing level - object
          lorry crate - thing)
  (:predicates
    (road ?from ?to - town)
    (at ?t - thing ?where - town)
    (in ?c - crate ?l - lorry)
    (room ?l - lorry ?n - level)
    (next ?less ?more - level))
  (:functions
    (length ?from ?to - town) - number
    (total-cost) - number)
  (:action drive
    :parameters (?l - lorry ?from ?to - town)
    :precondition (and (at ?l ?from) (road ?from ?to))
    :effect (and (not (at ?l ?from)) (at ?l ?to)
                 (increase (total-cost) (length ?from ?to))))
  (:action load
    :parameters (?c - crate ?l - lorry ?where - town ?less ?more - level)
    :precondition (and (at ?l ?where) (at ?c ?where) (next ?less ?more) (room ?l ?more))
    :effect (and (not (at ?c ?where)) (in ?c ?l) (not (room ?l ?more)) (room ?l ?less)
                 (increase (total-cost) 1)))
  (:action unload
    :parameters (?c - crate ?l - lorry ?where - town ?less ?more - level)
    :precondition (and (at ?l ?where) (in ?c ?l) (next ?less ?more) (room ?l ?less))
    :effect (and (not (in ?c ?l)) (at ?c ?where) (not (room ?l ?less)) (room ?l ?more)
                 (increase (total-cost) 1))))
