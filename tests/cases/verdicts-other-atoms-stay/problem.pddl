(define (problem switch-1) (:domain switch) (:init (hot)) (:goal (and (hot) (not (off)))))
