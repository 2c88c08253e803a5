(define (domain trucks)
  (:types depot van - truck truck - vehicle vehicle - van)
  (:predicates (at ?v - vehicle ?d - depot))
  (:action drive
    :parameters (?v - truck ?from ?to - depot)
    :precondition (at ?v ?from)
    :effect (and (not (at ?v ?from)) (at ?v ?to))))
