(define (domain keys) (:predicates (k) (g1) (g2))
(:durative-action u :parameters () :duration (= ?duration 1) :condition () :effect (at end (k)))
(:durative-action v1 :parameters () :duration (= ?dur