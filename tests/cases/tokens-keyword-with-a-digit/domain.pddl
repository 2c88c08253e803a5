(define (domain lamp)
  (:1a)
  (:predicates (lit) (dark))
  (:action light
    :precondition (dark)
    :effect (and (lit) (not (dark)))))
