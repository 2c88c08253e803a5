(define (domain doors)
  (:types door key)
  (:constants front - door)
  (:predicates (open ?d) (fits ?k - key ?d))
  (:action unlock
    :parameters (?k - key ?d)
    :precondition (fits ?k ?d)
    :effect (open ?d)))
