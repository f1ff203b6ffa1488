(define (problem stuck) (:domain stuck) (:init) (:goal (g)))
