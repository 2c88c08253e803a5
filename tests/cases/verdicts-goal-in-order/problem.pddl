(define (problem switch-1) (:domain switch) (:init ) (:goal (and (hot) (off) (on))))
