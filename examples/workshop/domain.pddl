; A jig is made for each cut and for each drilling, which use it up.
(define (domain workshop)
  (:requirements :durative-actions)
  (:predicates (jig) (cut) (drilled))
  (:durative-action make-jig
    :parameters ()
    :duration (= ?duration 1)
    :condition ()
    :effect (at end (jig)))
  (:durative-action cut
    :parameters ()
    :duration (= ?duration 2)
    :condition (over all (jig))
    :effect (and (at end (not (jig))) (at end (cut))))
  (:durative-action drill
    :parameters ()
    :duration (= ?duration 2)
    :condition (over all (jig))
    :effect (and (at end (not (jig))) (at end (drilled)))))
