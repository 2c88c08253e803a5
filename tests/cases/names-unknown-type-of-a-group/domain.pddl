(define (domain doors)
  (:types door key)
  (:constants front - door)
  (:predicates (open ?d - door) (fits ?k - key ?d - door))
  (:action unlock
    :parameters (?k - key ?d - door)
    :precondition (fits ?k ?d)
    :effect (open ?d)))
