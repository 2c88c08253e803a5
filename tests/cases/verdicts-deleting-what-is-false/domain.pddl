(define (domain switch)
  (:predicates (on) (off) (hot))
  (:action release :effect (and (not (on)) (off))))
