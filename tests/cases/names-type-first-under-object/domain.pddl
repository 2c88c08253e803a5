(define (domain trucks)
  (:types van - object van - truck truck - vehicle depot)
  (:predicates (at ?v - vehicle ?d - depot))
  (:action drive
    :parameters (?v - truck ?from ?to - depot)
    :precondition (at ?v ?from)
    :effect (and (not (at ?v ?from)) (at ?v ?to))))
