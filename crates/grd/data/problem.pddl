(define (problem p) (:domain fork) (:init (at0)) (:goal (and <HYPOTHESIS>)))
