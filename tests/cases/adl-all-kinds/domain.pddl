(define (domain t)
  (:types u v - w w none)
  (:constants c - u)
  (:predicates (p) (q ?x) (r ?x - u) (s ?x - u ?y - v) (k ?x ?y))
  (:action a
    :parameters (?x - u ?y - v)
    :precondition
      (and (or (q ?x) (not (p))) (imply (p) (q ?x)) (exists (?z - v) (q ?z))
        (forall (?z - u) (q ?z)) (not (not (q ?x))) (not ()) (or) (exists () (or))
        (exists (?z - (either u v) ?w) (and (q ?z) (= ?z ?w) (r ?x))) (not (= ?x c)) (not (and (p) ())))
    :effect
      ()))
