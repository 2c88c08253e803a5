; A lift opens its door for everybody at once: those who are where they want to be get out, and those who wait there get in.
; A shy guest in the lift does not want it to open where somebody loud waits.
(define (domain lift)
  (:requirements :adl)
  (:types guest floor)
  (:predicates
    (lift-at ?f - floor) (above ?high ?low - floor)
    (waits ?g - guest ?f - floor) (to ?g - guest ?f - floor)
    (aboard ?g - guest) (arrived ?g - guest)
    (shy ?g - guest) (loud ?g - guest))
  (:action ride
    :parameters (?from ?to - floor)
    :precondition (and (lift-at ?from) (or (above ?from ?to) (above ?to ?from)))
    :effect (and (not (lift-at ?from)) (lift-at ?to)))
  (:action open
    :parameters (?f - floor)
    :precondition (and
      (lift-at ?f)
      (forall (?g - guest)
        (imply (and (aboard ?g) (shy ?g)) (not (exists (?h - guest) (and (waits ?h ?f) (loud ?h)))))))
    :effect (forall (?g - guest) (and
      (when (and (aboard ?g) (to ?g ?f)) (and (not (aboard ?g)) (arrived ?g)))
      (when (waits ?g ?f) (and (not (waits ?g ?f)) (aboard ?g)))))))
