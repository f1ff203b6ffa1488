(define (problem done) (:domain done) (:init (g)) (:goal (g)))
