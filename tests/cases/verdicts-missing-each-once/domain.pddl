(define (domain lamp)
  (:predicates (lit) (dark))
  (:action light
    :precondition (and (lit) (dark) (lit) (lit))
    :effect (and (lit) (not (dark)))))
