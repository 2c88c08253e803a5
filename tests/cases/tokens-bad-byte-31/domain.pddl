(define (domain bare))
