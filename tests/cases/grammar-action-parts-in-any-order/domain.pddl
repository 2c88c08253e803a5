(define (domain doors)
  (:types door key)
  (:constants front - door)
  (:predicates (open ?d - door) (fits ?k - key ?d - door))
  (:action unlock
    :effect (open ?d)
    :precondition (fits ?k ?d)
    :parameters (?k - key ?d - door)))
