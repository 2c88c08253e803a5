(define (domain cups)
  (:predicates (on ?a ?b) (clear ?a) (down ?a))
  (:action stack
    :parameters (?a ?b)
    :precondition (and (clear ?a) (clear ?b) (down ?a))
    :effect (and (on ?a ?b) (not (clear ?b)) (not (down ?a))))
  (:action unstack
    :parameters (?a ?b)
    :precondition (and (on ?a ?b) (clear ?a))
    :effect (and (down ?a) (clear ?b) (not (on ?a ?b)))))
