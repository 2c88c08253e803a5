(define (problem pets-1) (:domain pets)
  (:objects tom - cat rex - dog hop - pet polly - bird nemo - animal stone)
  (:goal (fed tom)))
