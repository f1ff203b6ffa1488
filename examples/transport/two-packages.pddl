; One truck brings two packages from a to b.
(define (problem two-packages)
  (:domain transport)
  (:objects a b - place t1 - truck p1 p2 - package)
  (:init (at t1 a) (at p1 a) (at p2 a) (road a b))
  (:goal (and (at p1 b) (at p2 b)))
  (:metric minimize (total-time)))
