; A storm: six faults for two crews, who may end where they are. All times are minutes.
(define (problem six-faults)
  (:domain crews)
  (:objects
    anna bert - crew
    depot harbour mill tower bridge - site
    crane lock pump relay cable lamp - fault)
  (:init
    (at anna depot) (idle anna)
    (trained anna crane) (trained anna pump) (trained anna relay) (trained anna lamp)
    (at bert depot) (idle bert)
    (trained bert lock) (trained bert pump) (trained bert relay) (trained bert cable) 
    (stands crane harbour) (= (work crane) 30)
    (stands lock harbour) (= (work lock) 25)
    (stands pump mill) (= (work pump) 20)
    (stands relay tower) (= (work relay) 15)
    (stands cable bridge) (= (work cable) 18)
    (stands lamp tower) (= (work lamp) 8)
    (= (distance depot harbour) 20) (= (distance harbour depot) 20)
    (= (distance depot mill) 15) (= (distance mill depot) 15)
    (= (distance depot tower) 25) (= (distance tower depot) 25)
    (= (distance harbour mill) 10) (= (distance mill harbour) 10)
    (= (distance mill tower) 12) (= (distance tower mill) 12)
    (= (distance tower bridge) 9) (= (distance bridge tower) 9)
    (= (distance harbour bridge) 14) (= (distance bridge harbour) 14))
  (:goal (and (mended crane) (mended lock) (mended pump) (mended relay) (mended cable) (mended lamp)))
  (:metric minimize (total-time)))
