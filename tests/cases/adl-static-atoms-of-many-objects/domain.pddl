(define (domain rows)
  (:predicates (row ?a ?b ?c ?d ?e) (done ?a))
  (:action mark
    :parameters (?a ?b ?c ?d ?e)
    :precondition ()
    :effect (and (when (row ?a ?b ?c ?d ?e) (done ?a))
      (when (not (row ?e ?d ?c ?b ?a)) (done ?e)))))
