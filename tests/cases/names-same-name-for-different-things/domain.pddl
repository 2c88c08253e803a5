(define (domain lamp)
  (:types lamp)
  (:predicates (lamp ?lamp - lamp))
  (:action lamp :parameters (?lamp - lamp) :effect (lamp ?lamp)))
