(define (problem room-1)
  (:domain room)
  (:objects a b c d e f g h i j k l m n o t - s x y - pair z - single)
  (:init (p))
  (:goal (exists (?v1 ?v2 ?v3 ?v4 ?v5 ?v6 ?v7 ?v8 ?v9 ?v10 ?v11 ?v12 ?v13 ?v14 ?v15 ?v16 ?v17 ?v18 ?v19 ?v20 ?v21 ?v22 ?v23 ?v24 ?v25
    ?v26 - pair) (p))))
