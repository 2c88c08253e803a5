(define (problem one-night)
  (:domain telescopes)
  (:objects big small - telescope
            ruby amber - filter
            vega - star
            halley - comet)
  (:init (aims big vega) (aims small halley) (fitted big clear) (fitted small ruby))
  (:goal (and (picture vega amber) (picture halley ruby) (picture halley clear))))
