(define (domain t) (:predicates (p) (q ?x))
  (:action a :parameters (?x)
    :effect (when (= ?x ?x) (= ?x ?x))))
