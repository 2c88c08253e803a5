(define (domain doors)
  (:types door key)
  (:constants front - door)
  (:predicates (open ?d - door) (fits ?k - key ?d - door))
  (:action unlock
    :parameters (?K - KEY ?d - door)
    :precondition (fits ?k ?d)
    :effect (open ?d)))
