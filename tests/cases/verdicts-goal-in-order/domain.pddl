(define (domain switch)
  (:predicates (on) (off) (hot))
  (:action press :effect (off)))
