; Crews drive to faults and mend them. A crew mends one fault at a time, and only what it is trained for.
(define (domain crews)
  (:requirements :typing :durative-actions)
  (:types crew site fault)
  (:predicates
    (at ?c - crew ?s - site)
    (idle ?c - crew)
    (trained ?c - crew ?f - fault)
    (stands ?f - fault ?s - site)
    (mended ?f - fault))
  (:functions
    (distance ?a ?b - site)
    (work ?f - fault))
  (:durative-action drive
    :parameters (?c - crew ?a ?b - site)
    :duration (= ?duration (distance ?a ?b))
    :condition (at start (at ?c ?a))
    :effect (and
      (at start (not (at ?c ?a)))
      (at end (at ?c ?b))))
  (:durative-action mend
    :parameters (?c - crew ?f - fault ?s - site)
    :duration (= ?duration (work ?f))
    :condition (and
      (at start (idle ?c))
      (over all (at ?c ?s))
      (over all (trained ?c ?f))
      (over all (stands ?f ?s)))
    :effect (and
      (at start (not (idle ?c)))
      (at end (idle ?c))
      (at end (mended ?f)))))
