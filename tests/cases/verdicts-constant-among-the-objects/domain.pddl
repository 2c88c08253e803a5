(define (domain home)
  (:constants home)
  (:predicates (at ?place))
  (:action go :parameters (?place) :effect (at ?place)))
