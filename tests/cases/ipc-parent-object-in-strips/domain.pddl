(define (domain kinds)
  (:types low - object low - top top)
  (:predicates (at ?t - top) (done))
  (:action go :parameters (?t - top) :precondition (at ?t) :effect (done)))
