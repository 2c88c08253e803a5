(define (domain doors)
  (:types door key)
  (:constants front - door)
  (:predicates (open ?d - door) (fits ?k - key ?d - door))
  (:action unlock
    :precondition (suits ?k ?d)
    :parameters (?k - key ?d - gate)
    :effect (open ?d)))
