(define
 (domian lamp))
