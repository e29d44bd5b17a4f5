(define (domain d) (:action a :effect (increase (total-cost) 1)))
