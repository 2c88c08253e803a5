(define (domain doors)
  (:types door key)
  (:predicates (open ?d - gate) (fits ?k - key ?d - door))
  (:constants front - hatch)
  (:action unlock
    :parameters (?k - key ?d - door)
    :precondition (fits ?k ?d)
    :effect (open ?d)))
