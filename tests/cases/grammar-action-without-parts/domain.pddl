(define (domain bare) (:action rest))
