(define (problem lamp-1) (:domain lamp) (:init (dark) (dark)) (:goal (not (dark))))
