(define (domain t) (:predicates (p) (q ?x))
  (:action a :parameters (?x)
    :effect (forall (?y) (q ?y))))
