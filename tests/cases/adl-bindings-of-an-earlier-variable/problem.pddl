(define (problem room-1)
  (:domain room)
  (:objects a b c d e f g h i j k l m n o t - s x y - pair z - single)
  (:init (p))
  (:goal (exists (?a ?b ?c ?d ?e ?f ?g ?h
    ?i - s) (p))))
