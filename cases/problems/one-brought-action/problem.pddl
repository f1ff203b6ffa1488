(define (problem lock) (:domain lock) (:init) (:goal (g)))
