(define (domain lamp)
  (:predicates (lit) (dark))
  (:action light
    :precondition (and (not (dark)) (not (dark)))
    :effect (and (lit) (not (dark)))))
