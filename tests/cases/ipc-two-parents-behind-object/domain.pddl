(define (domain kinds)
  (:types low - object low - top low - other)
  (:predicates (at ?t - top) (done))
  (:action go :parameters (?t - top) :precondition (at ?t) :effect (done)))
