; Sections and parts stand in any order, some are missing, and conditions are nested or empty.
(define (domain loose) (:requirements :typing :strips)
(:action top :effect (and () (and (high) (not (middle)))) :precondition (and (and (middle)) ()))
(:action rest)
(:action start :effect (middle))
(:predicates (middle) (high)))
