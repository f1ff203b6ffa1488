; One satellite has a camera and a spectrograph, the other a camera. All times are minutes.
(define (problem three-images)
  (:domain satellites)
  (:objects
    aura terra - satellite
    camera spectrograph lens - instrument
    infrared visible - mode
    star earth comet nebula - direction)
  (:init
    (on-board camera aura) (supports camera visible) (target camera star) (= (calibration camera) 3)
    (on-board spectrograph aura) (supports spectrograph infrared) (target spectrograph star)
    (= (calibration spectrograph) 5)
    (on-board lens terra) (supports lens visible) (target lens earth) (= (calibration lens) 2)
    (pointing aura earth) (pointing terra earth)
    (= (slew earth star) 6) (= (slew star earth) 6)
    (= (slew earth comet) 9) (= (slew comet earth) 9)
    (= (slew star comet) 4) (= (slew comet star) 4)
    (= (slew star nebula) 5) (= (slew nebula star) 5)
    (= (slew comet nebula) 3) (= (slew nebula comet) 3))
  (:goal (and (taken comet infrared) (taken nebula visible) (taken comet visible)))
  (:metric minimize (total-time)))
