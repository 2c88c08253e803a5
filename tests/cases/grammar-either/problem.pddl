(define (problem garden)
  (:domain paint)
  (:objects brick - wall picket - fence iron - gate)
  (:goal (painted picket)))
