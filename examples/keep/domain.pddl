; (t) both deletes and adds (p), which is true afterwards.
(DEFINE (domain K)
(:predicates (p) (q))
(:action T :parameters () :precondition (p) :effect (and (q) (not (p)) (p))))
