(define (problem case-1) (:domain case)
  (:objects key pen - thing home office - place)
  (:init (at me home) (at key home) (at pen office) (open) (lit home))
  (:goal (and (not (or (open) (in key))) (not (forall (?x - thing) (not (in ?x)))))))
