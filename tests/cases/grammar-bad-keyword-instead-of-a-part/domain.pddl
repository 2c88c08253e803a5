(define (domain lamp)
  (:predicates (lit) (dark))
  (:action light
    :precondition (dark)
    :1 ()
    :effect (and (lit) (not (dark)))))
