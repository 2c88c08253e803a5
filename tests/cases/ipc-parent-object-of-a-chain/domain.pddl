(define (domain kinds)
  (:types low mid - object mid - top low - mid top - object)
  (:predicates (at ?t - top) (done))
  (:action go :parameters (?t - top) :precondition (at ?t) :effect (done)))
