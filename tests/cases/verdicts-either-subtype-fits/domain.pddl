(define (domain paint)
  (:types brush roller - tool spray)
  (:predicates (painted))
  (:action paint :parameters (?t - (either tool spray)) :effect (painted)))
