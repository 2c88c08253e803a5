(define (domain bare)
  (:requirements) (:types) (:constants) (:predicates))
