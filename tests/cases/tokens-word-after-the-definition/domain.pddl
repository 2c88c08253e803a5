(define (domain bare)) x
