(define (domain lamp)
  (:predicates (lit) (dark))
  (:action light
    :precondition (and (and (and (and (and (and (and (and (and (and (and (and (and (and (and (and (and (and (and (and (and (and (and (and (and (and (and (and (and (and (and (and (and (and (and (and (and (and (and (and (and (and (and (and (and (and (and (and (and (and (and (and (and (and (and (and (and (and (and (and (and (and (dark)))))))))))))))))))))))))))))))))))))))))))))))))))))))))))))))
    :effect (and (lit) (not (dark)))))
