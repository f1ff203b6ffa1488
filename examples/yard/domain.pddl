; Crews set a job up, a crane lifts it, and a crew finishes it. Crews and cranes do one thing at a time.
(define (domain yard)
  (:requirements :typing :durative-actions)
  (:types crane crew job)
  (:predicates
    (rests ?k - crane)
    (idle ?c - crew)
    (waits ?j - job)
    (set ?j - job)
    (lifted ?j - job)
    (finished ?j - job))
  (:functions
    (setting ?j - job)
    (lifting ?j - job)
    (finishing ?j - job))
  (:durative-action set-up
    :parameters (?c - crew ?j - job)
    :duration (= ?duration (setting ?j))
    :condition (and
      (at start (idle ?c))
      (at start (waits ?j)))
    :effect (and
      (at start (not (idle ?c)))
      (at start (not (waits ?j)))
      (at end (idle ?c))
      (at end (set ?j))))
  (:durative-action lift
    :parameters (?k - crane ?j - job)
    :duration (= ?duration (lifting ?j))
    :condition (and
      (at start (rests ?k))
      (at start (set ?j)))
    :effect (and
      (at start (not (rests ?k)))
      (at start (not (set ?j)))
      (at end (rests ?k))
      (at end (lifted ?j))))
  (:durative-action finish
    :parameters (?c - crew ?j - job)
    :duration (= ?duration (finishing ?j))
    :condition (and
      (at start (idle ?c))
      (at start (lifted ?j)))
    :effect (and
      (at start (not (idle ?c)))
      (at start (not (lifted ?j)))
      (at end (idle ?c))
      (at end (finished ?j)))))
