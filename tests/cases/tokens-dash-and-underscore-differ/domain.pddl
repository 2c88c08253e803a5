(define (domain lamp)
  (:predicates (lit) (is-dark))
  (:action light
    :precondition (is_dark)
    :effect (and (lit) (not (is-dark)))))
