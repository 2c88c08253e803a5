(define (domain paint)
  (:types wall fence gate)
  (:predicates (painted ?x - (EITHER wall fence)))
  (:action paint
    :parameters (?x - (either wall fence))
    :effect (painted ?x)))
