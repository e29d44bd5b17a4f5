; A corridor that forks: (a) and (b) lead to the fork, (l) and (r) to its two ends.
(define (domain fork)
(:predicates (at0) (at1) (at2) (atl) (atr))
(:action a :parameters () :precondition (at0) :effect (and (at1) (not (at0))))
(:action b :parameters () :precondition (at1) :effect (and (at2) (not (at1))))
(:action l :parameters () :precondition (at2) :effect (and (atl) (not (at2))))
(:action r :parameters () :precondition (at2) :effect (and (atr) (not (at2)))))
