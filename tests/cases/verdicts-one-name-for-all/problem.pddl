(define (problem door) (:domain door) (:objects door - door) (:goal (door door)))
