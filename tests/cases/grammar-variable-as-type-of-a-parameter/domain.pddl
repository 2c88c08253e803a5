(define (domain lamp)
  (:predicates (lit) (dark))
  (:action light
    :precondition (dark)
    :parameters (?x - ?y)
    :effect (and (lit) (not (dark)))))
