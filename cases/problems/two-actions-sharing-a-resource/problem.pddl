(define (problem shared) (:domain shared) (:init (r)) (:goal (and (p) (q))))
