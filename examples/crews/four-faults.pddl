; Two crews leave the depot, and may end where they are. All times are minutes.
(define (problem four-faults)
  (:domain crews)
  (:objects
    anna bert - crew
    depot harbour mill tower - site
    crane lock pump relay - fault)
  (:init
    (at anna depot) (idle anna)
    (trained anna crane) (trained anna pump) (trained anna relay)
    (at bert depot) (idle bert)
    (trained bert lock) (trained bert pump) (trained bert relay)
    (stands crane harbour) (= (work crane) 40)
    (stands lock harbour) (= (work lock) 25)
    (stands pump mill) (= (work pump) 30)
    (stands relay tower) (= (work relay) 15)
    (= (distance depot harbour) 20) (= (distance harbour depot) 20)
    (= (distance depot mill) 15) (= (distance mill depot) 15)
    (= (distance depot tower) 25) (= (distance tower depot) 25)
    (= (distance harbour mill) 10) (= (distance mill harbour) 10)
    (= (distance mill tower) 12) (= (distance tower mill) 12))
  (:goal (and (mended crane) (mended lock) (mended pump) (mended relay)))
  (:metric minimize (total-time)))
