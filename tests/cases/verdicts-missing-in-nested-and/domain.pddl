(define (domain lamp)
  (:predicates (lit) (dark))
  (:action light
    :precondition (and (and (lit) (and (not (dark)))) (and) (lit))
    :effect (and (lit) (not (dark)))))
