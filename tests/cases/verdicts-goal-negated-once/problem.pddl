(define (problem lamp-1) (:domain lamp) (:init (dark)) (:goal (and (not (dark)) (lit) (not (dark)))))
