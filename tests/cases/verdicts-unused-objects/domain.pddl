(define (domain bell)
  (:predicates (rung))
  (:action ring :parameters (?who ?when) :effect (rung)))
