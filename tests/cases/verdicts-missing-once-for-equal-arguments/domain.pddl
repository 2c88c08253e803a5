(define (domain cards)
  (:predicates (held ?c) (face-up ?c))
  (:action swap
    :parameters (?a ?b)
    :precondition (and (held ?a) (face-up ?a) (held ?b) (face-up ?b))))
