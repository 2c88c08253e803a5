(define (domain bare))
