(define (domain t)
  (:types u - object u - w w)
  (:predicates (p ?x - w))
  (:functions (total-cost))
  (:action a
    :parameters (?x ?y - u)
    :precondition (not (= ?x ?y))
    :effect (and (p ?x) (increase (total-cost) 0.25))))
