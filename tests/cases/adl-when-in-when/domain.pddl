(define (domain t)
  (:types u v - w w none)
  (:constants c - u)
  (:predicates (p) (q ?x) (r ?x - u) (s ?x - u ?y - v) (k ?x ?y))
  (:action a
    :parameters (?x - u ?y - v)
    :precondition
      ()
    :effect
      (and (when (p) (when (s ?x ?y) (q ?x))) (when (p) (when (r ?x) (q ?y))) (when (r ?x) (when (p) (q ?y))))))
