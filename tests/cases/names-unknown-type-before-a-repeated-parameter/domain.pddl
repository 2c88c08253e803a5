(define (domain doors)
  (:types door key)
  (:constants front - door)
  (:predicates (open ?d - door) (fits ?k - key ?d - door))
  (:action unlock
    :parameters (?k - keys ?d - door ?d - door)
    :precondition (fits ?k ?d)
    :effect (open ?d)))
