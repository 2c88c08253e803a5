(define (domain bare))
