(define (problem switch-1) (:domain switch) (:init ) (:goal (and (and (hot)) (and (and) (on) (and (hot))))))
