; An analyser measures samples. A run of one kind uses a cartridge of that kind up, and there is no other than those in stock.
(define (domain cartridge)
  (:requirements :typing :durative-actions :negative-preconditions)
  (:types cartridge sample kind)
  (:predicates
    (in-stock ?c - cartridge)
    (inserted ?c - cartridge)
    (occupied)
    (of-kind ?c - cartridge ?k - kind)
    (asks ?s - sample ?k - kind)
    (measured ?s - sample))
  (:functions (run-time ?k - kind))
  (:durative-action insert
    :parameters (?c - cartridge)
    :duration (= ?duration 1)
    :condition (and
      (at start (in-stock ?c))
      (at start (not (occupied))))
    :effect (and
      (at start (not (in-stock ?c)))
      (at start (occupied))
      (at end (inserted ?c))))
  (:durative-action measure
    :parameters (?s - sample ?c - cartridge ?k - kind)
    :duration (= ?duration (run-time ?k))
    :condition (and
      (at start (inserted ?c))
      (over all (of-kind ?c ?k))
      (over all (asks ?s ?k)))
    :effect (and
      (at start (not (inserted ?c)))
      (at end (not (occupied)))
      (at end (measured ?s)))))
