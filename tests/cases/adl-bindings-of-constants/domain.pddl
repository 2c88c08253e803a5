(define (domain room)
  (:types s - sup sup pair single none)
  (:constants a b c d e f g h i j k l m n o t - s)
  (:predicates (p) (q ?x))
  (:action a
    :parameters (?l)
    :precondition ()
    :effect ())
  (:action b
    :precondition ()))
