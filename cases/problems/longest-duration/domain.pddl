(define (domain long) (:predicates (g))
(:durative-action a :parameters () :duration (= ?duration 100000) :condition ()
 :effect (at end (g))))
