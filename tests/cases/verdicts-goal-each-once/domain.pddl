(define (domain switch)
  (:predicates (on) (off) (hot)))
