(define (problem case-1) (:domain case)
  (:objects key pen - thing home office - place)
  (:init (at me home) (at key home) (at pen office) (open) (lit home))
  (:goal (and (forall (?x - thing) (at ?x office)) (or (not (open)) (exists (?l - place) (not (lit ?l)))))))
