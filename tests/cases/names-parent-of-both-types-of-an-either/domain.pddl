(define (domain paint)
  (:types wall fence - thing gate)
  (:predicates (painted ?x - (either wall fence)))
  (:action paint
    :parameters (?x - thing)
    :effect (painted ?x)))
