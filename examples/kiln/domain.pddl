; Pieces are set on the slots of cars, and a kiln fires one car at a time, whole. What a car is fired with is chosen
; for the car: a piece has to get its own glaze's firing. Somebody who sets or draws pieces does one at a time.
(define (domain kiln)
  (:requirements :typing :durative-actions :negative-preconditions)
  (:types kiln car slot piece glaze potter)
  (:predicates
    (cold ?k - kiln)
    (idle ?w - potter)
    (part ?s - slot ?c - car)
    (taken ?s - slot)
    (waits ?p - piece)
    (stands ?p - piece ?s - slot)
    (wants ?p - piece ?g - glaze)
    (fired ?c - car)
    (fired-with ?c - car ?g - glaze)
    (done ?p - piece))
  (:functions
    (setting ?p - piece)
    (firing ?g - glaze))
  (:durative-action set-on
    :parameters (?w - potter ?p - piece ?s - slot ?c - car)
    :duration (= ?duration (setting ?p))
    :condition (and
      (at start (idle ?w))
      (at start (waits ?p))
      (over all (part ?s ?c))
      (over all (not (fired ?c)))
      (at start (not (taken ?s))))
    :effect (and
      (at start (not (idle ?w)))
      (at start (not (waits ?p)))
      (at start (taken ?s))
      (at end (idle ?w))
      (at end (stands ?p ?s))))
  (:durative-action fire
    :parameters (?k - kiln ?c - car ?g - glaze)
    :duration (= ?duration (firing ?g))
    :condition (and
      (at start (cold ?k))
      (at start (not (fired ?c))))
    :effect (and
      (at start (not (cold ?k)))
      (at start (fired ?c))
      (at end (cold ?k))
      (at end (fired-with ?c ?g))))
  (:durative-action draw
    :parameters (?w - potter ?p - piece ?s - slot ?c - car ?g - glaze)
    :duration (= ?duration 1)
    :condition (and
      (at start (idle ?w))
      (at start (stands ?p ?s))
      (over all (part ?s ?c))
      (over all (wants ?p ?g))
      (over all (fired-with ?c ?g)))
    :effect (and
      (at start (not (idle ?w)))
      (at start (not (stands ?p ?s)))
      (at end (idle ?w))
      (at end (done ?p)))))
