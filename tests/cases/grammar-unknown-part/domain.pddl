(define (domain lamp)
  (:predicates (lit) (dark))
  (:action light
    :precondition (dark)
    :duration ()
    :effect (and (lit) (not (dark)))))
