(define (domain bare))
