(define (domain stuck) (:predicates (g)))
