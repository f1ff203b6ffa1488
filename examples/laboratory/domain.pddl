; A robot's arm carries plates between stations, one at a time. A station holds one plate, whether it works or not.
(define (domain laboratory)
  (:requirements :typing :durative-actions :negative-preconditions)
  (:types arm plate station step)
  (:predicates
    (free ?r - arm)
    (stands ?p - plate ?s - station)
    (full ?s - station)
    (does ?s - station ?t - step)
    (due ?p - plate ?t - step)
    (follows ?t ?u - step))
  (:functions
    (way ?a ?b - station)
    (time ?p - plate ?t - step))
  (:durative-action carry
    :parameters (?r - arm ?p - plate ?a ?b - station)
    :duration (= ?duration (way ?a ?b))
    :condition (and
      (at start (free ?r))
      (at start (stands ?p ?a))
      (at start (not (full ?b))))
    :effect (and
      (at start (not (free ?r)))
      (at start (not (stands ?p ?a)))
      (at start (full ?b))
      (at end (not (full ?a)))
      (at end (free ?r))
      (at end (stands ?p ?b))))
  (:durative-action work
    :parameters (?p - plate ?s - station ?t ?u - step)
    :duration (= ?duration (time ?p ?t))
    :condition (and
      (over all (stands ?p ?s))
      (over all (does ?s ?t))
      (at start (due ?p ?t))
      (over all (follows ?t ?u)))
    :effect (and
      (at start (not (due ?p ?t)))
      (at end (due ?p ?u)))))
