(define (domain keys) (:predicates (k) (g1) (g2))
(:durative-action u :parameters () :duration (= ?d