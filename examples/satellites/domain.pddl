; Satellites turn to what they observe. An instrument is switched on, calibrated at its target, and then takes images.
; Of a satellite's instruments one at a time has power. Switching on loses the calibration.
(define (domain satellites)
  (:requirements :typing :durative-actions :negative-preconditions)
  (:types satellite instrument mode direction)
  (:predicates
    (on-board ?i - instrument ?s - satellite)
    (supports ?i - instrument ?m - mode)
    (target ?i - instrument ?d - direction)
    (pointing ?s - satellite ?d - direction)
    (powered ?s - satellite)
    (on ?i - instrument)
    (calibrated ?i - instrument)
    (taken ?d - direction ?m - mode))
  (:functions
    (slew ?a ?b - direction)
    (calibration ?i - instrument))
  (:durative-action turn
    :parameters (?s - satellite ?a ?b - direction)
    :duration (= ?duration (slew ?a ?b))
    :condition (at start (pointing ?s ?a))
    :effect (and
      (at start (not (pointing ?s ?a)))
      (at end (pointing ?s ?b))))
  (:durative-action switch-on
    :parameters (?i - instrument ?s - satellite)
    :duration (= ?duration 2)
    :condition (and
      (over all (on-board ?i ?s))
      (at start (not (powered ?s))))
    :effect (and
      (at start (powered ?s))
      (at start (not (calibrated ?i)))
      (at end (on ?i))))
  (:durative-action switch-off
    :parameters (?i - instrument ?s - satellite)
    :duration (= ?duration 1)
    :condition (and
      (over all (on-board ?i ?s))
      (at start (on ?i)))
    :effect (and
      (at start (not (on ?i)))
      (at end (not (powered ?s)))))
  (:durative-action calibrate
    :parameters (?i - instrument ?s - satellite ?d - direction)
    :duration (= ?duration (calibration ?i))
    :condition (and
      (over all (on-board ?i ?s))
      (over all (target ?i ?d))
      (over all (pointing ?s ?d))
      (over all (on ?i)))
    :effect (at end (calibrated ?i)))
  (:durative-action take-image
    :parameters (?i - instrument ?s - satellite ?d - direction ?m - mode)
    :duration (= ?duration 4)
    :condition (and
      (over all (on-board ?i ?s))
      (over all (supports ?i ?m))
      (over all (pointing ?s ?d))
      (over all (on ?i))
      (over all (calibrated ?i)))
    :effect (at end (taken ?d ?m))))
