(define (domain kinds)
  (:types low - top top low)
  (:predicates (at ?t - top) (done))
  (:action go :parameters (?t - top) :precondition (at ?t) :effect (done)))
