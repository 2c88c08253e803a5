(define (domain home)
  (:constants home)
  (:predicates (at ?place))
  (:action go-home :effect (at home)))
