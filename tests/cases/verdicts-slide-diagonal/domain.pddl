(define (domain slide)
  (:types tile cell)
  (:predicates (on ?t - tile ?c - cell) (free ?c - cell) (beside ?a ?b - cell))
  (:action slide
    :parameters (?t - tile ?from ?to - cell)
    :precondition (and (on ?t ?from) (free ?to) (beside ?from ?to))
    :effect (and (not (on ?t ?from)) (free ?from) (on ?t ?to) (not (free ?to)))))
