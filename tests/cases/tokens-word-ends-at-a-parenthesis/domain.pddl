(define (domain bare)x(:types))
