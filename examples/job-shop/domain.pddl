; Jobs go through their steps in order. Each step is done on its machine, which does one step at a time.
(define (domain job-shop)
  (:requirements :typing :durative-actions)
  (:types job machine step)
  (:predicates
    (waits ?j - job ?s - step)
    (free ?m - machine)
    (needs ?j - job ?s - step ?m - machine)
    (next ?s - step ?t - step))
  (:functions (time ?j - job ?s - step))
  (:durative-action work
    :parameters (?j - job ?s - step ?t - step ?m - machine)
    :duration (= ?duration (time ?j ?s))
    :condition (and
      (at start (waits ?j ?s))
      (at start (free ?m))
      (over all (needs ?j ?s ?m))
      (over all (next ?s ?t)))
    :effect (and
      (at start (not (waits ?j ?s)))
      (at start (not (free ?m)))
      (at end (free ?m))
      (at end (waits ?j ?t)))))
