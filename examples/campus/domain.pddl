; A student walks between the places of a campus and does there what can be done.
(define (domain campus)
(:requirements :strips :typing)
(:types place activity)
(:constants library - place)
(:predicates
  (at ?p - place) (path ?from ?to - place)
  (offers ?p - place ?a - activity) (done ?a - activity)
  (has-book) (needs-book ?a - activity) (light ?a - activity))
(:action walk
:parameters (?from ?to - place)
:precondition (and (at ?from) (path ?from ?to))
:effect (and (at ?to) (not (at ?from))))
(:action borrow-book
:parameters ()
:precondition (at library)
:effect (has-book))
(:action do
:parameters (?a - activity ?p - place)
:precondition (and (at ?p) (offers ?p ?a) (light ?a))
:effect (done ?a))
(:action do-with-book
:parameters (?a - activity ?p - place)
:precondition (and (at ?p) (offers ?p ?a) (needs-book ?a) (has-book))
:effect (done ?a)))
