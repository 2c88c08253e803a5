(define (domain lamp)
  (:predicates (lit) (dark))
  (:action light
    :precondition (IMPLY (dark) (lit))
    :effect (and (lit) (not (dark)))))
