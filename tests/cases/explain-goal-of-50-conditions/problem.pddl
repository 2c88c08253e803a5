(define (problem dark)
  (:domain lamp)
  (:objects r1 r2 r3 r4 r5 r6 r7 r8 r9 r10 r11 r12 r13 r14 r15 r16 r17 r18 r19 r20 r21 r22 r23 r24
    r25 r26 r27 r28 r29 r30 r31 r32 r33 r34 r35 r36 r37 r38 r39 r40 r41 r42 r43 r44 r45 r46 r47 r48
    r49 r50 - room)
  (:init)
  (:goal (and (lit r1) (lit r2) (lit r3) (lit r4) (lit r5) (lit r6) (lit r7) (lit r8) (lit r9)
    (lit r10) (lit r11) (lit r12) (lit r13) (lit r14) (lit r15) (lit r16) (lit r17) (lit r18)
    (lit r19) (lit r20) (lit r21) (lit r22) (lit r23) (lit r24) (lit r25) (lit r26) (lit r27)
    (lit r28) (lit r29) (lit r30) (lit r31) (lit r32) (lit r33) (lit r34) (lit r35) (lit r36)
    (lit r37) (lit r38) (lit r39) (lit r40) (lit r41) (lit r42) (lit r43) (lit r44) (lit r45)
    (lit r46) (lit r47) (lit r48) (lit r49) (lit r50))))
