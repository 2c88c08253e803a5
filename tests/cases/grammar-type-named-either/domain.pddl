(define (domain doors)
  (:types either key)
  (:constants front - either)
  (:predicates (open ?d - either) (fits ?k - key ?d - either))
  (:action unlock
    :parameters (?k - key ?d - either)
    :precondition (fits ?k ?d)
    :effect (open ?d)))
