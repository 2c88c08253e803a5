(define (domain letters)
  (:requirements :strips :typing :action-costs)
  (:types storey letter)
  (:predicates (clerk-on ?s - storey) (above ?upper ?lower - storey) (lies ?l - letter ?s - storey) (in-bag ?l - letter))
  (:functions (total-cost) - number)
  (:action climb
    :parameters (?from ?to - storey)
    :precondition (and (clerk-on ?from) (above ?to ?from))
    :effect (and (not (clerk-on ?from)) (clerk-on ?to) (increase (total-cost) 2.5)))
  (:action descend
    :parameters (?from ?to - storey)
    :precondition (and (clerk-on ?from) (above ?from ?to))
    :effect (and (not (clerk-on ?from)) (clerk-on ?to) (increase (total-cost) 0.75)))
  (:action take
    :parameters (?l - letter ?s - storey)
    :precondition (and (clerk-on ?s) (lies ?l ?s))
    :effect (and (in-bag ?l) (not (lies ?l ?s)) (increase (total-cost) 1)))
  (:action leave
    :parameters (?l - letter ?s - storey)
    :precondition (and (clerk-on ?s) (in-bag ?l))
    :effect (and (lies ?l ?s) (not (in-bag ?l)) (increase (total-cost) 1))))
