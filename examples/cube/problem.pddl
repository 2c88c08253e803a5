(define (problem two-turns)
  (:domain cube)
  (:objects amber blue cream denim ebony fawn gold henna - corner)
  (:init
    (at fawn f1) (at blue f2) (at denim f3) (at amber f4)
    (at ebony b1) (at gold b2) (at cream b3) (at henna b4))
  (:goal (and
    (at amber f1) (at blue f2) (at cream f3) (at denim f4)
    (at ebony b1) (at fawn b2) (at gold b3) (at henna b4))))
