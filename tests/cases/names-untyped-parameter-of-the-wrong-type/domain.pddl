(define (domain doors)
  (:types door key)
  (:constants front - door)
  (:predicates (open ?d - door) (fits ?k - key ?d - door))
  (:action unlock
    :parameters (?d - door ?k)
    :precondition (fits ?k ?d)
    :effect (open ?d)))
