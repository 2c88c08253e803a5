; one

; three
(define (domain bare) x)
