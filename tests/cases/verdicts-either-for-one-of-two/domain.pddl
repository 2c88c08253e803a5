(define (domain paint)
  (:types brush roller - tool spray)
  (:predicates (painted))
  (:action paint :parameters (?t ?u - (either roller spray)) :effect (painted)))
