(define (problem lamp-1) (:domain lamp) (:init (dark)) (:goal (and (lit) (not (lit)))))
