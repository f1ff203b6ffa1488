; A long and a short car, four pieces in two glazes, one potter. Which firing goes first? All times are half hours.
(define (problem two-firings)
  (:domain kiln)
  (:objects
    kiln - kiln
    long short - car
    front back shelf rack - slot
    bowl jug vase plate - piece
    ash celadon - glaze
    ida - potter)
  (:init
    (cold kiln) (idle ida)
    (part front long) (part back long) (part shelf short) (part rack short)
    (waits bowl) (wants bowl celadon) (= (setting bowl) 1)
    (waits jug) (wants jug celadon) (= (setting jug) 3)
    (waits vase) (wants vase ash) (= (setting vase) 2)
    (waits plate) (wants plate ash) (= (setting plate) 1)
    (= (firing ash) 12) (= (firing celadon) 16))
  (:goal (and (done bowl) (done jug) (done vase) (done plate)))
  (:metric minimize (total-time)))
