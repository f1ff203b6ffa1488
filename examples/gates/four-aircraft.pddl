; Three gates, of which one takes the wide aircraft, two ground crews and a tug. All times are minutes, in fives.
(define (problem four-aircraft)
  (:domain gates)
  (:objects
    heavy jet prop shuttle - aircraft
    a1 a2 b1 - gate
    west - runway
    blue red - crew
    tug - tug
    narrow wide - size)
  (:init
    (free west) (idle blue) (idle red) (ready tug)
    (fits narrow a1) (fits narrow a2) (fits narrow b1) (fits wide b1)
    (= (taxi a1) 2) (= (taxi a2) 3) (= (taxi b1) 4)
    (aloft heavy) (of-size heavy wide) (= (flight heavy) 6) (= (turn-around heavy) 14)
    (aloft jet) (of-size jet narrow) (= (flight jet) 2) (= (turn-around jet) 8)
    (aloft prop) (of-size prop narrow) (= (flight prop) 1) (= (turn-around prop) 5)
    (aloft shuttle) (of-size shuttle narrow) (= (flight shuttle) 4) (= (turn-around shuttle) 7))
  (:goal (and (off heavy) (off jet) (off prop) (off shuttle)))
  (:metric minimize (total-time)))
