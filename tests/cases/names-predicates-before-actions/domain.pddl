(define (domain doors)
  (:types door key)
  (:action unlock
    :parameters (?k - key ?d - door)
    :effect (closed ?d))
  (:predicates (open ?d - gate)))
