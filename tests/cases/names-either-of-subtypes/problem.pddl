(define (problem garden)
  (:domain paint)
  (:objects brick - wall picket - picket-fence iron - gate)
  (:goal (painted picket)))
