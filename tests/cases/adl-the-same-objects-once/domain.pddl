(define (domain t)
  (:types u v - w w none)
  (:constants c - u)
  (:predicates (p) (q ?x) (r ?x - u) (s ?x - u ?y - v) (k ?x ?y))
  (:action a
    :parameters (?x - u ?y - u)
    :precondition
      (and (or (q ?x) (r ?x)) (or (q ?y) (r ?y)) (exists (?z) (k ?z ?x)) (exists (?z) (k ?z ?y)))
    :effect
      ()))
