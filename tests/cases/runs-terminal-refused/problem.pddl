(define (problem lamp-1) (:domain lamp) (:init (dark)) (:gaol (lit)))
