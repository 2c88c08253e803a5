(define (domain lamp)
  (:predicates (lit) (dark) (wired) (powered))
  (:action light
    :precondition (and (wired) () (and (dark) (and (powered)) (and)))
    :effect (and (lit) (not (dark)))))
