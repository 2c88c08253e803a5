(define (domain words)
  (:predicates (increase ?a) (assign) (scale-up ?a ?b))
  (:action act
    :parameters (?a)
    :precondition (increase ?a)
    :effect (and (not (increase ?a)) (assign) (scale-up ?a ?a))))
