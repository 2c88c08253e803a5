(define (domain room)
  (:types s - sup sup pair single none t3 t5 t11 t31 t41)
  (:predicates (p) (q ?x))
  (:action a
    :parameters (?l)
    :precondition ()
    :effect ())
  (:action b
    :precondition ()))
