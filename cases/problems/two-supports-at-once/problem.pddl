(define (problem supports) (:domain supports) (:init) (:goal (g)))
