(define (domain bare) these-are-no-words-of-a-domain)
