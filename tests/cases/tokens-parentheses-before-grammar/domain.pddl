(defin (domain ?x)
