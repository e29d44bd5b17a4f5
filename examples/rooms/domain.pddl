; Rooms and halls are places, and a robot goes from place to place where it is lit.
(DEFINE (domain Rooms) (:requirements :typing)
(:constants Lobby - hall)
(:types room hall - place thing)
(:predicates (at ?x - (either thing robot) ?p - place) (lit))
(:action Go :parameters (?r - robot ?from ?to - place)
:effect (and (not (at ?r ?from)) (and (at ?r ?to)))
:precondition (and (at ?r ?from) (lit))))
