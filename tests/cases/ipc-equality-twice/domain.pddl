(define (domain pairs)
  (:types thing tool - object)
  (:constants key - tool)
  (:predicates (seen ?t - object) (done))
  (:action pair
    :parameters (?a ?b - thing ?c - tool)
    :precondition (and (= ?a ?b) (seen ?a) (= ?a ?b))
    :effect (done)))
