(define (domain lamp)
  (:predicates (lit) (dark))
  (:action light
    :precondition (dark)
    :effect (and (lit) (not (dark))))
  (:action darken :precondition (lit) :effect (and (dark) (not (lit)))))
