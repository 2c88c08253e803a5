(define (domian lamp))
