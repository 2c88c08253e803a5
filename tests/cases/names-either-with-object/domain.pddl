(define (domain paint)
  (:types wall fence gate)
  (:predicates (painted ?x))
  (:action paint
    :parameters (?x - (either wall object))
    :effect (painted ?x)))
