(define (domain lamp)
  (:predicates (lit) (dark))
  (:action :precondition (dark)
    :effect (and (lit) (not (dark)))))
