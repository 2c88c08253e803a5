(define (domain pets)
  (:types cat dog - pet pet bird - animal)
  (:predicates (fed ?a - animal))
  (:action feed :parameters (?p - pet) :effect (fed ?p)))
