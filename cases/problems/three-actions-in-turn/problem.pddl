(define (problem turns) (:domain turns) (:init (r)) (:goal (and (g1) (g2) (g3))))
