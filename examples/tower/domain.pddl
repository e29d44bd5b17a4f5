; Blocks with letters are moved one by one, from the table or another block. No block is moved onto itself.
(define (domain tower)
(:requirements :strips :typing :equality)
(:types block)
(:predicates (on ?x ?y - block) (on-table ?x - block) (clear ?x - block))
(:action move
:parameters (?x ?from ?to - block)
:precondition (and (on ?x ?from) (clear ?x) (clear ?to) (not (= ?x ?to)) (not (= ?from ?to)))
:effect (and (on ?x ?to) (clear ?from) (not (on ?x ?from)) (not (clear ?to))))
(:action move-to-table
:parameters (?x ?from - block)
:precondition (and (on ?x ?from) (clear ?x))
:effect (and (on-table ?x) (clear ?from) (not (on ?x ?from))))
(:action move-from-table
:parameters (?x ?to - block)
:precondition (and (on-table ?x) (clear ?x) (clear ?to) (not (= ?x ?to)))
:effect (and (on ?x ?to) (not (on-table ?x)) (not (clear ?to)))))
