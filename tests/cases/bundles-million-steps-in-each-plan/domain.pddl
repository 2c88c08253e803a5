(define (domain bell)
  (:predicates (rung))
  (:action r :effect (rung)))
