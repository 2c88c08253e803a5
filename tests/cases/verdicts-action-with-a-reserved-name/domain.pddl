(define (domain switch)
  (:predicates (on) (off) (hot))
  (:action not :effect (on)))
