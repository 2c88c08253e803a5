(define (domain switch)
  (:predicates (on) (off) (hot))
  (:action press :effect (on))
  (:action release :effect (not (on))))
