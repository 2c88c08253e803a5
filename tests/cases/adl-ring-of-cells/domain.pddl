(define (domain shift)
  (:types cell)
  (:predicates (next ?a ?b - cell) (on ?a - cell))
  (:action shift
    :effect (forall (?a ?b - cell) (when (next ?a ?b)
      (and (when (on ?a) (on ?b)) (when (not (on ?a)) (not (on ?b)))))))
  (:action clear
    :precondition (exists (?a - cell) (on ?a))
    :effect (forall (?a - cell) (not (on ?a)))))
