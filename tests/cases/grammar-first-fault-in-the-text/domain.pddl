(define (domain lamp)
  (:functions)
  (:predicates (lit) (dark))
  (:action light
    :precondition (dark)
    :effekt (and (lit) (not (dark)))))
