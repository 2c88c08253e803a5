(define (domain doors)
  (:constants front - gate)
  (:types door - key key - door)
  (:predicates (open ?d - door) (fits ?k - key ?d - door))
  (:action unlock
    :parameters (?k - key ?d - door)
    :precondition (fits ?k ?d)
    :effect (open ?d)))
