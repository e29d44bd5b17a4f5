; c stands on a, d on b, and a and b on the table.
(define (problem two-stacks) (:domain blocks)
(:objects a b c d - block)
(:init
  (on-table a) (on-table b) (on c a) (on d b)
  (clear c) (clear d) (hand-empty))
(:goal (and)))
