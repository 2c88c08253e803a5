; Twenty boards in four colours.
(define (problem twenty-boards)
  (:domain workshop)
  (:objects
    board-1 board-2 board-3 board-4 board-5 board-6 board-7 board-8 board-9 board-10 board-11 board-12 board-13 board-14
    board-15 board-16 board-17 board-18 board-19 board-20 - board
    shelf-1 shelf-2 shelf-3 shelf-4 shelf-5 - shelf
    oven - drying-room            ; a constant of the domain, declared again with its own type
    red green blue black - colour)
  (:init
    (idle saw) (idle drill) (idle booth) (idle oven) (loaded-with natural)
    (lies board-1 shelf-1) (coloured board-1 natural) (lies board-2 shelf-2) (coloured board-2 natural)
    (lies board-3 shelf-3) (coloured board-3 natural) (lies board-4 shelf-4) (coloured board-4 natural)
    (lies board-5 shelf-5) (coloured board-5 natural) (lies board-6 shelf-1) (coloured board-6 natural)
    (lies board-7 shelf-2) (coloured board-7 natural) (lies board-8 shelf-3) (coloured board-8 natural)
    (lies board-9 shelf-4) (coloured board-9 natural) (lies board-10 shelf-5) (coloured board-10 natural)
    (lies board-11 shelf-1) (coloured board-11 natural) (lies board-12 shelf-2) (coloured board-12 natural)
    (lies board-13 shelf-3) (coloured board-13 natural) (lies board-14 shelf-4) (coloured board-14 natural)
    (lies board-15 shelf-5) (coloured board-15 natural) (lies board-16 shelf-1) (coloured board-16 natural)
    (lies board-17 shelf-2) (coloured board-17 natural) (lies board-18 shelf-3) (coloured board-18 natural)
    (lies board-19 shelf-4) (coloured board-19 natural) (lies board-20 shelf-5) (coloured board-20 natural))
  (:goal (and
    (sawn board-1) (drilled board-1) (coloured board-1 red) (dry board-1)
    (sawn board-2) (drilled board-2) (coloured board-2 green) (dry board-2)
    (sawn board-3) (drilled board-3) (coloured board-3 blue) (dry board-3)
    (sawn board-4) (drilled board-4) (coloured board-4 black) (dry board-4)
    (sawn board-5) (drilled board-5) (coloured board-5 red) (dry board-5)
    (sawn board-6) (drilled board-6) (coloured board-6 green) (dry board-6)
    (sawn board-7) (drilled board-7) (coloured board-7 blue) (dry board-7)
    (sawn board-8) (drilled board-8) (coloured board-8 black) (dry board-8)
    (sawn board-9) (drilled board-9) (coloured board-9 red) (dry board-9)
    (sawn board-10) (drilled board-10) (coloured board-10 green) (dry board-10)
    (sawn board-11) (drilled board-11) (coloured board-11 blue) (dry board-11)
    (sawn board-12) (drilled board-12) (coloured board-12 black) (dry board-12)
    (sawn board-13) (drilled board-13) (coloured board-13 red) (dry board-13)
    (sawn board-14) (drilled board-14) (coloured board-14 green) (dry board-14)
    (sawn board-15) (drilled board-15) (coloured board-15 blue) (dry board-15)
    (sawn board-16) (drilled board-16) (coloured board-16 black) (dry board-16)
    (sawn board-17) (drilled board-17) (coloured board-17 red) (dry board-17)
    (sawn board-18) (drilled board-18) (coloured board-18 green) (dry board-18)
    (sawn board-19) (drilled board-19) (coloured board-19 blue) (dry board-19)
    (sawn board-20) (drilled board-20) (coloured board-20 black) (dry board-20)
    (loaded-with natural))))
