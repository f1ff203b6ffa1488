(define (domain done) (:predicates (g)))
