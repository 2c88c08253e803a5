(define (domain lamp)
  (:predicates (lit) (dark))
  (:action when
    :precondition (dark)
    :effect (and (lit) (not (dark)))))
