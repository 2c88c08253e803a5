(define (problem lamp) (:domain lamp) (:objects lamp - lamp) (:goal (lamp lamp)))
