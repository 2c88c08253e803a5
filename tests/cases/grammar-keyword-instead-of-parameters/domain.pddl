(define (domain lamp)
  (:predicates (lit) (dark))
  (:action light
    :parameters :effect (and (lit) (not (dark)))))
