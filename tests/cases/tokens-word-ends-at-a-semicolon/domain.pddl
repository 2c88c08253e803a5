(define (domain 2;bare
))
