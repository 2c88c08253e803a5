(define (domain bell)
  (:predicates (rung))
  (:action ring :effect (rung)))
