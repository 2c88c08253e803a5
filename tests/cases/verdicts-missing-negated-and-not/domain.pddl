(define (domain lamp)
  (:predicates (lit) (dark))
  (:action light
    :precondition (and (not (dark)) (lit))
    :effect (and (lit) (not (dark)))))
