(define (domain lamps)
  (:predicates (lit ?lamp))
  (:action light :parameters (?lamp) :effect (lit ?lamp)))
