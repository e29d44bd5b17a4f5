(define (problem p) (:init) (:requirements :strips) (:domain loose))
