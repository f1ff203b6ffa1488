; Aircraft land on one runway, taxi to a gate that they fit, are turned around by a ground crew, and are pushed back
; by a tug. A gate is taken from the beginning of the taxiing to the end of the push-back.
(define (domain gates)
  (:requirements :typing :durative-actions :negative-preconditions)
  (:types aircraft gate runway crew tug size)
  (:predicates
    (free ?r - runway)
    (idle ?c - crew)
    (ready ?t - tug)
    (taken ?g - gate)
    (of-size ?a - aircraft ?s - size)
    (fits ?s - size ?g - gate)
    (aloft ?a - aircraft)
    (near ?a - aircraft)
    (down ?a - aircraft)
    (parked ?a - aircraft ?g - gate)
    (served ?a - aircraft)
    (off ?a - aircraft))
  (:functions
    (flight ?a - aircraft)
    (taxi ?g - gate)
    (turn-around ?a - aircraft))
  (:durative-action come-in
    :parameters (?a - aircraft)
    :duration (= ?duration (flight ?a))
    :condition (at start (aloft ?a))
    :effect (and
      (at start (not (aloft ?a)))
      (at end (near ?a))))
  (:durative-action land
    :parameters (?a - aircraft ?r - runway)
    :duration (= ?duration 2)
    :condition (and
      (at start (near ?a))
      (at start (free ?r)))
    :effect (and
      (at start (not (near ?a)))
      (at start (not (free ?r)))
      (at end (free ?r))
      (at end (down ?a))))
  (:durative-action taxi-in
    :parameters (?a - aircraft ?s - size ?g - gate)
    :duration (= ?duration (taxi ?g))
    :condition (and
      (at start (down ?a))
      (at start (not (taken ?g)))
      (over all (of-size ?a ?s))
      (over all (fits ?s ?g)))
    :effect (and
      (at start (not (down ?a)))
      (at start (taken ?g))
      (at end (parked ?a ?g))))
  (:durative-action serve
    :parameters (?c - crew ?a - aircraft ?g - gate)
    :duration (= ?duration (turn-around ?a))
    :condition (and
      (at start (idle ?c))
      (over all (parked ?a ?g)))
    :effect (and
      (at start (not (idle ?c)))
      (at end (idle ?c))
      (at end (served ?a))))
  (:durative-action push-back
    :parameters (?t - tug ?a - aircraft ?g - gate)
    :duration (= ?duration 3)
    :condition (and
      (at start (ready ?t))
      (at start (parked ?a ?g))
      (over all (served ?a)))
    :effect (and
      (at start (not (ready ?t)))
      (at start (not (parked ?a ?g)))
      (at end (ready ?t))
      (at end (not (taken ?g)))
      (at end (off ?a)))))
