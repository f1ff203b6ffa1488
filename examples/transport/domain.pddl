; Trucks that carry packages between places: loading and unloading take 1, and driving takes 3.
(define (domain transport)
  (:requirements :strips :typing :durative-actions)
  (:types place thing - object truck package - thing)
  (:predicates
    (at ?x - thing ?l - place)
    (in ?p - package ?t - truck)
    (road ?a ?b - place))
  (:durative-action load
    :parameters (?p - package ?t - truck ?l - place)
    :duration (= ?duration 1)
    :condition (and (over all (at ?t ?l)) (at start (at ?p ?l)))
    :effect (and (at start (not (at ?p ?l))) (at end (in ?p ?t))))
  (:durative-action unload
    :parameters (?p - package ?t - truck ?l - place)
    :duration (= ?duration 1)
    :condition (and (over all (at ?t ?l)) (at start (in ?p ?t)))
    :effect (and (at start (not (in ?p ?t))) (at end (at ?p ?l))))
  (:durative-action drive
    :parameters (?t - truck ?a ?b - place)
    :duration (= ?duration 3)
    :condition (and (at start (at ?t ?a)) (at start (road ?a ?b)))
    :effect (and (at start (not (at ?t ?a))) (at end (at ?t ?b)))))
