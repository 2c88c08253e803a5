(define (domain d)
wrong)
