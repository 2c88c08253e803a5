(define (problem room-1)
  (:domain room)
  (:objects a b c d e f g h i j k l m n o t - s z - single
    c1 c2 c3 - t3 e1 e2 e3 e4 e5 - t5 k1 k2 k3 k4 k5 k6 k7 k8 k9 k10 k11 - t11
    m1 m2 m3 m4 m5 m6 m7 m8 m9 m10 m11 m12 m13 m14 m15 m16 m17 m18 m19 m20 m21 m22 m23 m24 m25 m26 m27 m28 m29 m30 m31 - t31
    n1 n2 n3 n4 n5 n6 n7 n8 n9 n10 n11 n12 n13 n14 n15 n16 n17 n18 n19 n20 n21 n22 n23 n24 n25 n26 n27 n28 n29 n30 n31 n32 n33 n34 n35 n36 n37 n38 n39 n40 n41 - t41)
  (:init (p))
  (:goal (exists (?a - s) (exists (?b - t3 ?c ?d - t5 ?e - t11 ?f - t31 ?g - t41) (p)))))
