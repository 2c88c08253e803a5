(define (problem t-1) (:domain t)
  (:objects o1 o2 o3 o4 o5 o6 o7 o8 o9 o10 o11 o12 o13 o14 o15 o16 o17 o18 o19 o20 o21 o22 o23 o24 o25 o26 o27 o28 o29 o30 o31 o32 o33 o34 o35 o36 o37 o38 o39 o40 o41 o42 o43 o44 o45 o46 o47 o48 o49 o50 o51 o52)
  (:init)
  (:goal (or (p o1) (p o2) (p o3) (p o4) (p o5) (p o6) (p o7) (p o8) (p o9) (p o10) (p o11) (p o12) (p o13) (p o14) (p o15) (p o16) (p o17) (p o18) (p o19) (p o20) (p o21) (p o22) (p o23) (p o24) (p o25) (p o26) (p o27) (p o28) (p o29) (p o30) (p o31) (p o32) (p o33) (p o34) (p o35) (p o36) (p o37) (p o38) (p o39) (p o40) (p o41) (p o42) (p o43) (p o44) (p o45) (p o46) (p o47) (p o48) (p o49) (p o50) (p o51) (p o52))))
