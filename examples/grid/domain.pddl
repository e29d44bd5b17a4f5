; A robot moves between cells that are connected.
(define (domain grid)
(:requirements :strips :typing)
(:types cell)
(:predicates (at ?a - cell) (connected ?a ?b - cell))
(:action move
:parameters (?a ?b - cell)
:precondition (and (at ?a) (connected ?a ?b))
:effect (and (at ?b) (not (at ?a)))))
