(define (problem rows-1) (:domain rows) (:objects a b c d e f g h i j k l) (:goal ()))
