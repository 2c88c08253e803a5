(define (domain lamp)
  (:predicates (lit) (dark))
  (:action light
    :precondition (dark)
    :parameters ?x
    :effect (and (lit) (not (dark)))))
