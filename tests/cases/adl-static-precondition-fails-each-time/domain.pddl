(define (domain roads)
  (:predicates (road ?x ?y) (wall ?x) (at ?x))
  (:action go
    :parameters (?x ?y)
    :precondition (and (at ?x) (road ?x ?y) (not (wall ?y)))
    :effect (and (at ?y) (not (at ?x)))))
