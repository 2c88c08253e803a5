(define (domain lamp)
  (:predicates (lit) (dark) (= ?x ?y))
  (:action light
    :precondition (dark)
    :effect (and (lit) (not (dark)))))
