(define (domain t) (:predicates (p) (q ?x))
  (:action a :parameters (?x)
    :precondition (forall (?room) (q ?roam))))
