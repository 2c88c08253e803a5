(define (domain bare) ; a note
)
