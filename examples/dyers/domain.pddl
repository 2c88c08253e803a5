; Cloth is dyed, hung up to dry, and packed. A dye takes the place of the one before. Cloth that gets the same dye again keeps it: the effect deletes that atom
; and adds it, and what is added is true afterwards.
(define (domain dyers)
  (:requirements :adl)
  (:types cloth dye box)
  (:predicates (dry ?c - cloth) (dyed ?c - cloth ?d - dye) (in ?c - cloth ?b - box) (packed ?b - box))
  (:action dip
    :parameters (?c - cloth ?new - dye)
    :precondition (dry ?c)
    :effect (and
      (dyed ?c ?new)
      (not (dry ?c))
      (forall (?old - dye) (when (dyed ?c ?old) (not (dyed ?c ?old))))))
  (:action hang
    :parameters (?c - cloth)
    :precondition (not (dry ?c))
    :effect (dry ?c))
  (:action pack
    :parameters (?b - box)
    :precondition (and
      (forall (?c - cloth) (imply (in ?c ?b) (dry ?c)))
      (exists (?d - dye) (forall (?c - cloth) (imply (in ?c ?b) (dyed ?c ?d)))))
    :effect (packed ?b)))
