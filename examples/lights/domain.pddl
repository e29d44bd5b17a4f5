; At home in the evening: lights are switched on where they are off, and off where they are on.
; Nobody walks into a room that is locked, finds a key or reads in the dark, reads where it is cold, or sleeps
; with the light on.
(define (domain lights)
(:requirements :strips :typing :negative-preconditions)
(:types room)
(:predicates
  (at ?r - room) (door ?from ?to - room) (locked ?r - room) (lit ?r - room)
  (bed ?r - room) (key ?r - room) (cold ?r - room) (have-key) (asleep) (have-read))
(:action walk
:parameters (?from ?to - room)
:precondition (and (at ?from) (door ?from ?to) (not (locked ?to)))
:effect (and (at ?to) (not (at ?from))))
(:action switch-on
:parameters (?r - room)
:precondition (and (at ?r) (not (lit ?r)))
:effect (lit ?r))
(:action switch-off
:parameters (?r - room)
:precondition (and (at ?r) (lit ?r))
:effect (not (lit ?r)))
(:action take-key
:parameters (?r - room)
:precondition (and (at ?r) (key ?r) (lit ?r) (not (have-key)))
:effect (have-key))
(:action unlock
:parameters (?from ?to - room)
:precondition (and (at ?from) (door ?from ?to) (locked ?to) (have-key))
:effect (not (locked ?to)))
(:action read
:parameters (?r - room)
:precondition (and (at ?r) (lit ?r) (not (cold ?r)))
:effect (have-read))
(:action sleep
:parameters (?r - room)
:precondition (and (at ?r) (bed ?r) (not (lit ?r)))
:effect (asleep)))
