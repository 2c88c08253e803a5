(define (domain lamp)
  (:predicates (lit) (dark))
  (:action light
    :precondition (dark)
    :effect (and (and (lit)) () (and (and (not (dark)))))))
