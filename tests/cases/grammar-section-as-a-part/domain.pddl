(define (domain lamp)
  (:predicates (lit) (dark))
  (:action light
    :precondition (dark)
    :predicates ()
    :effect (and (lit) (not (dark)))))
