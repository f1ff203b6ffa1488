; One crane, two crews, three jobs. All times are quarters of an hour.
(define (problem three-jobs)
  (:domain yard)
  (:objects
    crane - crane
    north south - crew
    beam mast tank - job)
  (:init
    (rests crane) (idle north) (idle south)
    (waits beam) (= (setting beam) 2) (= (lifting beam) 4) (= (finishing beam) 3)
    (waits mast) (= (setting mast) 3) (= (lifting mast) 2) (= (finishing mast) 6)
    (waits tank) (= (setting tank) 4) (= (lifting tank) 3) (= (finishing tank) 2))
  (:goal (and (finished beam) (finished mast) (finished tank)))
  (:metric minimize (total-time)))
