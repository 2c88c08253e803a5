(define (problem ropes-1) (:domain ropes) (:objects a ab bc c) (:goal (and (tied a bc) (tied ab c))))
