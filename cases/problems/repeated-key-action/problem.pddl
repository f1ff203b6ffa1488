(define (problem keys) (:domain keys) (:init) (:goal (and (g1) (g2))))
