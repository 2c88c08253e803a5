(define (domain t)
  (:requirements :adl)
  (:predicates (a) (b) (c))
  (:action turn
    :effect (and (when (and (a) (not (b))) (and (not (a)) (b)))
                 (when (b) (and (not (b)) (c)))
                 (when (c) (and (a) (not (c)))))))
