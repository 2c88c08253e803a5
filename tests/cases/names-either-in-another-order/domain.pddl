(define (domain paint)
  (:types wall fence gate)
  (:predicates (painted ?x - (either wall fence)))
  (:action paint
    :parameters (?x - (either fence wall))
    :effect (painted ?x)))
