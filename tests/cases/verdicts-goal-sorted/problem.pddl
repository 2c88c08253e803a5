(define (problem shelf-1) (:domain shelf)
  (:objects cup jar)
  (:init (clean jar))
  (:goal (and (clean cup) (clean jar) (dry cup) (dry jar))))
