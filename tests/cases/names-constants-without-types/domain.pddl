(define (domain doors) (:constants front - door))
