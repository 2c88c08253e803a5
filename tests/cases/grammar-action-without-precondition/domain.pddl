(define (domain lamp)
  (:predicates (lit) (dark))
  (:action light
    :effect (and (lit) (not (dark)))))
