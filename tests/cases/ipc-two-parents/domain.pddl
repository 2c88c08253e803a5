(define (domain kinds)
  (:types low - top low - object low - other top other)
  (:predicates (at ?t - top) (done))
  (:action go :parameters (?t - top) :precondition (at ?t) :effect (done)))
