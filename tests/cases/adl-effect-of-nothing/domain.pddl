(define (domain t)
  (:types u v - w w none)
  (:constants c - u)
  (:predicates (p) (q ?x) (r ?x - u) (s ?x - u ?y - v) (k ?x ?y))
  (:action a
    :parameters (?x - u ?y - v)
    :precondition
      ()
    :effect
      (and () (and) (forall (?z) ()) (forall () (and)) (when (p) ()) (when () (and)) (forall (?z - u) (when (q ?z) ())))))
