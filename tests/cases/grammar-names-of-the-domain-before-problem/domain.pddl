(define (domain lamp)
  (:predicates (lit) (dark))
  (:action light
    :precondition (broken)
    :effect (and (lit) (not (dark)))))
