(define (domain lamp)
  (:predicates (lit) (dark))
  (:action light
    :precondition (dark)
    :effect (and (lit) (not (dark))))
  (:action light :parameters (?x - bulb) :effect (broken)))
