(define (domain paint)
  (:types wall fence gate)
  (:predicates (painted ?x - fence))
  (:action paint
    :parameters (?x - (either wall fence))
    :effect (painted ?x)))
