; The corners of a small cube. A turn of a face moves whatever is in its four places, so each corner that moves is found by the places themselves.
; All corners move at once: which one goes where depends on the state before the turn.
(define (domain cube)
  (:requirements :typing :conditional-effects :universal-preconditions)
  (:types corner place)
  (:constants f1 f2 f3 f4 b1 b2 b3 b4 - place)
  (:predicates (at ?c - corner ?p - place))
  (:action turn-front
    :effect (forall (?c - corner) (and
      (when (at ?c f1) (and (not (at ?c f1)) (at ?c f2)))
      (when (at ?c f2) (and (not (at ?c f2)) (at ?c f3)))
      (when (at ?c f3) (and (not (at ?c f3)) (at ?c f4)))
      (when (at ?c f4) (and (not (at ?c f4)) (at ?c f1))))))
  (:action turn-right
    :effect (forall (?c - corner) (and
      (when (at ?c f2) (and (not (at ?c f2)) (at ?c b2)))
      (when (at ?c b2) (and (not (at ?c b2)) (at ?c b3)))
      (when (at ?c b3) (and (not (at ?c b3)) (at ?c f3)))
      (when (at ?c f3) (and (not (at ?c f3)) (at ?c f2)))))))
