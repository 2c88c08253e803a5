(define (domain doors)
  (:action unlock
    :parameters (?k - key ?d - door)
    :precondition (fits ?k ?d)
    :effect (open ?d))
  (:predicates (open ?d - door) (fits ?k - key ?d - door))
  (:constants front - door)
  (:types door key)
  (:requirements :strips))
