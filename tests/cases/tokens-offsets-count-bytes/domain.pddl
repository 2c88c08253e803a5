; café
(define (domain bare) x)
