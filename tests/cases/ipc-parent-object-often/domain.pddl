(define (domain kinds)
  (:types low - object low - top low - object top - object low)
  (:predicates (at ?t - top) (done))
  (:action go :parameters (?t - top) :precondition (at ?t) :effect (done)))
