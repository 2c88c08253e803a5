(define (domain t)
  (:types u - v
    w - object
    u - w)
  (:action a :effect (forall (?x) ())))
