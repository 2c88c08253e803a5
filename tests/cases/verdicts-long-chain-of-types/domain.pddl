(define (domain food)
  (:types gala - apple apple - fruit fruit - food)
  (:predicates (eaten))
  (:action eat :parameters (?x - food) :effect (eaten)))
