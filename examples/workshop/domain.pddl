; Boards are sawn, drilled, painted and dried in a workshop whose machines are constants of the domain.
(define (domain workshop)
  (:requirements :strips :typing)
  (:types
    saw-bench drill-press spray-booth drying-room - machine
    machine shelf - spot
    board colour)
  (:constants
    saw - saw-bench
    drill - drill-press
    booth - spray-booth
    oven - drying-room
    natural - colour)           ; the colour of a board without paint
  (:predicates
    (lies ?b - board ?s - spot)
    (idle ?m - machine)
    (sawn ?b - board)
    (drilled ?b - board)
    (coloured ?b - board ?c - colour)
    (wet ?b - board)
    (dry ?b - board)
    (loaded-with ?c - colour)   ; the paint that is in the booth
    (loose-dust))

  (:action put-in
    :parameters (?b - board ?s - shelf ?m - machine)
    :precondition (and (lies ?b ?s) (idle ?m))
    :effect (and (lies ?b ?m) (not (lies ?b ?s)) (not (idle ?m))))

  (:action take-out
    :parameters (?b - board ?m - machine ?s - shelf)
    :precondition (lies ?b ?m)
    :effect (and (lies ?b ?s) (idle ?m) (not (lies ?b ?m))))

  (:action cut
    :parameters (?b - board)
    :precondition (lies ?b saw)
    :effect (and (sawn ?b) (loose-dust)))

  (:action bore
    :parameters (?b - board)
    :precondition (and (lies ?b drill) (sawn ?b))
    :effect (and (drilled ?b) (loose-dust)))

  (:action sweep
    :effect (not (loose-dust)))

  (:action change-paint
    :parameters (?old ?new - colour)
    :precondition (and (idle booth) (loaded-with ?old))
    :effect (and (not (loaded-with ?old)) (loaded-with ?new)))

  (:action spray
    :parameters (?b - board ?c - colour)
    :precondition (and (lies ?b booth) (loaded-with ?c) (coloured ?b natural))
    :effect (and (coloured ?b ?c) (wet ?b) (not (coloured ?b natural)) (not (dry ?b))))

  (:action bake
    :parameters (?b - board)
    :precondition (and (lies ?b oven) (wet ?b))
    :effect (and (dry ?b) (not (wet ?b)))))
