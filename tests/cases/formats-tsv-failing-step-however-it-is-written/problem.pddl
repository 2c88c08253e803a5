(define (problem p) (:domain d) (:objects hall attic - room lamp)
  (:init (at hall)) (:goal (and (lit attic) (not (lit hall)))))
