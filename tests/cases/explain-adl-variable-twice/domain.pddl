(define (domain t) (:predicates (p) (q ?x))
  (:action a :parameters (?x)
    :precondition (exists (?x ?X) (q ?x))))
