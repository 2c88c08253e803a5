(define (domain bare)) ()
