(define (domain parcels)
  (:types truck parcel - thing town)
  (:predicates
    (at ?x - thing ?t - town) (in ?p - parcel ?v - truck) (road ?from ?to - town))
  (:action load
    :parameters (?p - parcel ?v - truck ?t - town)
    :precondition (and (at ?p ?t) (at ?v ?t))
    :effect (and (in ?p ?v) (not (at ?p ?t))))
  (:action drive
    :parameters (?v - truck ?from ?to - town)
    :precondition (and (at ?v ?from) (road ?from ?to))
    :effect (and (at ?v ?to) (not (at ?v ?from))))
  (:action unload
    :parameters (?p - parcel ?v - truck ?t - town)
    :precondition (and (in ?p ?v) (at ?v ?t))
    :effect (and (at ?p ?t) (not (in ?p ?v)))))
