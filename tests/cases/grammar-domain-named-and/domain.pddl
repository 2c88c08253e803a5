(define (domain and))
