(define (domain doors)
  (:types key door)
  (:predicates
    (lies ?k - key) (held ?k - key) (fits ?k - key ?d - door)
    (locked ?d - door) (open ?d - door))
  (:action pick-up
    :parameters (?k - key)
    :precondition (lies ?k)
    :effect (and (held ?k) (not (lies ?k))))
  (:action unlock
    :parameters (?k - key ?d - door)
    :precondition (and (held ?k) (fits ?k ?d) (locked ?d))
    :effect (not (locked ?d)))
  (:action open
    :parameters (?d - door)
    :precondition (and (not (locked ?d)) (not (open ?d)))
    :effect (open ?d)))
