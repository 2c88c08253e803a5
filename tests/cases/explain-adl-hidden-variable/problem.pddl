(define (problem case-1) (:domain case)
  (:objects key pen - thing home office - place)
  (:init (at me home) (at key home) (at pen office) (open) (lit home))
  (:goal (forall (?x - place) (and (lit ?x) (exists (?x - thing) (in ?x))))))
