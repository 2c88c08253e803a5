(define (domain lamps)
  (:predicates (wired ?x ?y) (lit ?x))
  (:action press
    :parameters (?x)
    :precondition ()
    :effect (forall (?y)
      (when (wired ?x ?y)
        (and (when (lit ?y) (not (lit ?y)))
          (when (not (lit ?y)) (lit ?y)))))))
