(define (domain bare))
