(define (problem z) (:domain k) (:init (P)) (:goal (and <hypothesis>)))
