(define (domain crates)
  (:types box - thing can - box shelf thing - object)
  (:constants k - can s - shelf)
  (:predicates (full ?x) (ready))
  (:action fill
    :parameters (?x - box)
    :precondition ()
    :effect (full ?x))
  (:action check
    :parameters ()
    :precondition (forall (?x - box) (full ?x))
    :effect (ready)))
