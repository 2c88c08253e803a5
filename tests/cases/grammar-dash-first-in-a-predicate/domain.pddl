(define (domain lamp)
  (:predicates (lit) (dark) (hot - object))
  (:action light
    :precondition (dark)
    :effect (and (lit) (not (dark)))))
