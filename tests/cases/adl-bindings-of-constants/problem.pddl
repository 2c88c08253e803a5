(define (problem room-1)
  (:domain room)
  (:goal (forall (?a ?b ?c ?d ?e ?f ?g) (p))))
