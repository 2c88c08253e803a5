(define (domain paint)
  (:types picket-fence - fence wall fence gate)
  (:predicates (painted ?x - (either wall fence)))
  (:action paint
    :parameters (?x - (either picket-fence wall))
    :effect (painted ?x)))
