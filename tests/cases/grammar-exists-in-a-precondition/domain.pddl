(define (domain lamp)
  (:predicates (lit) (dark))
  (:action light
    :precondition (and (dark) (exists (?x) (lit)))
    :effect (and (lit) (not (dark)))))
