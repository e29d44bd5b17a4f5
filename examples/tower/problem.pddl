; c stands on r, and the others on the table.
(define (problem letters) (:domain tower)
(:objects a c r t - block)
(:init
  (on-table a) (on-table r) (on-table t) (on c r)
  (clear a) (clear c) (clear t))
(:goal (and)))
