(define (domain doors)
  (:types door key)
  (:constants front - door)
  (:predicates (open ?d - gate) (fits ?k - key ?d - door) (open))
  (:action unlock
    :parameters (?k - key ?d - door)
    :precondition (fits ?k ?d)
    :effect (open ?d)))
