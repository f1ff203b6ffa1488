(define (domain keys) (:predicates (k) (g1) (g2))
(:durative