(define (domain paint)
  (:types wall fence gate)
  (:predicates (painted ?x - (either wall fence)))
  (:action paint
    :parameters (?x ?y - (either wall fence))
    :effect (painted ?x)))
