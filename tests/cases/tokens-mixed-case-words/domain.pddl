(define (domain lamp)
  (:predicates (Lit) (Dark))
  (:action light
    :Precondition (DARK)
    :effect (and (lit) (not (dark)))))
