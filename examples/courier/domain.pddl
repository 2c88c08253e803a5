; Parcels go by bike and van within a city, and by plane from airport to airport.
(define (domain courier)
  (:requirements :strips :typing)
  (:types
    bike van - wheeled
    wheeled plane - vehicle     ; vehicle itself stands right below object
    depot airport house - stop
    city parcel)
  (:predicates
    (parked ?v - (either bike van plane) ?s - stop)
    (waits ?p - parcel ?s - stop)
    (rides ?p - parcel ?v - (either bike van plane))
    (inside ?s - stop ?c - city)
    (by-bike ?s - stop))        ; a bike can get there

  (:action load
    :parameters (?p - parcel ?v - (either bike van plane) ?s - stop)
    :precondition (and (parked ?v ?s) (waits ?p ?s))
    :effect (and (rides ?p ?v) (not (waits ?p ?s))))

  (:action unload
    :parameters (?p - parcel ?v - (either bike van plane) ?s - stop)
    :precondition (and (parked ?v ?s) (rides ?p ?v))
    :effect (and (waits ?p ?s) (not (rides ?p ?v))))

  (:action drive
    :parameters (?v - van ?from ?to - stop ?c - city)
    :precondition (and (parked ?v ?from) (inside ?from ?c) (inside ?to ?c))
    :effect (and (parked ?v ?to) (not (parked ?v ?from))))

  (:action cycle
    :parameters (?v - bike ?from ?to - stop ?c - city)
    :precondition (and (parked ?v ?from) (inside ?from ?c) (inside ?to ?c) (by-bike ?from) (by-bike ?to))
    :effect (and (parked ?v ?to) (not (parked ?v ?from))))

  (:action fly
    :parameters (?v - plane ?from ?to - airport)
    :precondition (parked ?v ?from)
    :effect (and (parked ?v ?to) (not (parked ?v ?from)))))
