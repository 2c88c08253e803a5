(define (problem hall) (:domain doors) (:objects forall - key or - door) (:init (fits forall not)) (:goal (and (open NOT) (and))))
