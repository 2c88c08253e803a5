(define (domain t)
  (:action a
    :precondition (when)
    :effect (and (and (and (and (and (and (and (and (and (and (and (and (and (and (and (and (and (and (and (and (and (and (and (and (and (and (and (and (and (and (and (and (and (and (and (and (and (and (and (and (and (and (and (and (and (and (and (and (and (and (and (and (and (and (and (and (and (and (and (and (and (and ()))))))))))))))))))))))))))))))))))))))))))))))))))))))))))))))))))
