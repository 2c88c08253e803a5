(define (problem stack-1) (:domain stack)
  (:objects cup jar lid)
  (:goal (and (on cup jar) (on cup lid) (on cup jar))))
