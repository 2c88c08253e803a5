(define (domain c) (:requirements :strips :typing :action-costs :equality)
  (:types place) (:predicates (at ?p - place)) (:functions (d ?a ?b - place) - number (total-cost) - number)
  (:action go :parameters (?a ?b - place) :precondition (and (at ?a) (not (= ?a ?b)))
    :effect (and (not (at ?a)) (at ?b) (increase (total-cost) (d ?a ?b)) (increase (total-cost) 0.5))))
