(define (problem evening) (:init (dark))
)
