(define (problem long) (:domain long) (:init) (:goal (g)))
