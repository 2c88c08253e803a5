(define (domain lamp)
  (:predicates (lit) (dark))
  (:action light
    :precondition (or (dark) (lit))
    :effect (and (lit) (not (dark)))))
