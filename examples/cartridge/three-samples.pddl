; Two samples ask for sodium, and there is one cartridge for it: each can be measured, but not both.
(define (problem three-samples)
  (:domain cartridge)
  (:objects
    grey red - cartridge
    ann ben eve - sample
    glucose sodium - kind)
  (:init
    (in-stock grey) (of-kind grey sodium)
    (in-stock red) (of-kind red glucose)
    (asks ann sodium) (asks ben sodium) (asks eve glucose)
    (= (run-time glucose) 4) (= (run-time sodium) 6))
  (:goal (and (measured ann) (measured ben) (measured eve)))
  (:metric minimize (total-time)))
