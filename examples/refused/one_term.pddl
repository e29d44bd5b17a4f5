(define (domain fork) (:action a :parameters (?x) :precondition (= ?x)))
