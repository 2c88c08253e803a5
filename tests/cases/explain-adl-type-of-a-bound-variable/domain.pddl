(define (domain t) (:types t u) (:predicates (p) (q ?x - t))
  (:action a :parameters (?x - t)
    :precondition (forall (?x - (either t u)) (q ?x))))
