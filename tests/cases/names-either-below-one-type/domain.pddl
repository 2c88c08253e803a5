(define (domain paint)
  (:types wall fence gate - thing)
  (:predicates (painted ?x - thing))
  (:action paint
    :parameters (?x - (either wall fence))
    :effect (painted ?x)))
