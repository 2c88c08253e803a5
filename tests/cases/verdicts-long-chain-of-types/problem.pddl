(define (problem food-1) (:domain food) (:objects snack - gala) (:goal (eaten)))
