(define (domain trucks)
  (:types van - truck van - truck van - depot depot truck - vehicle)
  (:predicates (at ?v - vehicle ?d - depot))
  (:action drive
    :parameters (?v - truck ?from ?to - depot)
    :precondition (at ?v ?from)
    :effect (and (not (at ?v ?from)) (at ?v ?to))))
