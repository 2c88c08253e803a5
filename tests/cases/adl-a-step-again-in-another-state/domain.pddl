(define (domain t)
  (:types u v - w w none)
  (:constants c - u)
  (:predicates (p) (q ?x) (r ?x - u) (s ?x - u ?y - v) (k ?x ?y))
  (:action a
    :parameters (?x - u ?y - v)
    :precondition
      ()
    :effect
      (forall (?z ?w - u) (when (and (q ?z) (not (= ?z ?w))) (and (not (q ?z)) (q ?w))))))
