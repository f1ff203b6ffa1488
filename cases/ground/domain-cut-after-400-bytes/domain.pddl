(define (domain keys) (:predicates (k) (g1) (g2))
(:durative-action u :parameters () :duration (= ?duration 1) :condition () :effect (at end (k)))
(:durative-action v1 :parameters () :duration (= ?duration 2) :condition (over all (k))
 :effect (and (at end (not (k))) (at end (g1))))
(:durative-action v2 :parameters () :duration (= ?duration 2) :condition (over all (k))
 :effect (and (at end (not (