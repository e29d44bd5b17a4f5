(define (domain fork) (:types place) (:predicates (at ?p - town)))
