(define (problem shelf-1) (:domain shelf)
  (:objects cup jar)
  (:init (dry jar))
  (:goal (and (clean cup) (clean jar) (dry cup) (clean jar) (not (dry jar)))))
