(define (domain doors)
  (:action slam :effect (broken))
  (:types door - thing door - object))
