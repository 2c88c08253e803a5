(define (domain lamp)
  (:functions (total-cost))
  (:predicates (lit) (dark))
  (:action light
    :precondition (dark)
    :effect (and (lit) (not (dark)))))
