(define (domain lamp)
  (:predicates (lit) (dark))
  (:action light
    :precondition ()
    :effect (and (lit) (not (dark)))))
