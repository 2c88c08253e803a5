(define (domain t)
  (:types u v - w w none)
  (:constants c - u)
  (:predicates (p) (q ?x) (r ?x - u) (s ?x - u ?y - v) (k ?x ?y))
  (:action a
    :parameters (?x - u ?y - v)
    :precondition
      (and (forall (?z - v) (and (exists (?z - u) (r ?z)) (s c ?z))) (exists (?z - u) (and (forall (?z - v) (s c ?z)) (not (r ?z)) (q ?z))))
    :effect
      ()))
