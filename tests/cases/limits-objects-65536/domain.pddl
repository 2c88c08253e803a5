(define (domain many))
