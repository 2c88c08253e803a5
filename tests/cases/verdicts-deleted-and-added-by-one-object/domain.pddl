(define (domain walk)
  (:predicates (at ?room))
  (:action go
    :parameters (?from ?to)
    :precondition (at ?from)
    :effect (and (at ?to) (not (at ?from)))))
