(define (domain lamp)
  (:predicates (lit) (dark))
  (:action light
    :precondition (dark)
    :parameters () :parameters ()
    :effect (and (lit) (not (dark)))))
