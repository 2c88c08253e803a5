domain (define (domain bare))
