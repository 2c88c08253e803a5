(define (domain t) (:predicates (p) (q ?x))
  (:action a :parameters (?x)
    :effect (when (exists (?y) (q ?y)) (q ?y))))
