; Two plates are shaken, kept warm and read. They stand in the racks at first, and may stay where they were read last.
; All times are minutes.
(define (problem two-plates)
  (:domain laboratory)
  (:objects
    arm - arm
    blood serum - plate
    rack1 rack2 shaker warmer reader - station
    shake warm read finished - step)
  (:init
    (free arm)
    (stands blood rack1) (full rack1) (due blood shake)
    (stands serum rack2) (full rack2) (due serum shake)
    (does shaker shake) (does warmer warm) (does reader read)
    (follows shake warm) (follows warm read) (follows read finished)
    (= (time blood shake) 9) (= (time blood warm) 12) (= (time blood read) 4)
    (= (time serum shake) 4) (= (time serum warm) 10) (= (time serum read) 8)
    (= (way rack1 shaker) 1) (= (way rack2 shaker) 2)
    (= (way shaker warmer) 2) (= (way warmer reader) 2) (= (way reader rack1) 3))
  (:goal (and (due blood finished) (due serum finished)))
  (:metric minimize (total-time)))
