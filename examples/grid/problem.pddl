; Five rows and five columns; # is a wall, and S the start.
;   ..#..
;   .#...
;   S...#
;   .#...
;   ..#..
(define (problem walls) (:domain grid)
(:objects
  c1-1 c1-2 c1-4 c1-5
  c2-1 c2-3 c2-4 c2-5
  c3-1 c3-2 c3-3 c3-4
  c4-1 c4-3 c4-4 c4-5
  c5-1 c5-2 c5-4 c5-5
  - cell)
(:init (at c3-1)
  (connected c1-1 c2-1) (connected c1-1 c1-2)
  (connected c1-2 c1-1)
  (connected c1-4 c2-4) (connected c1-4 c1-5)
  (connected c1-5 c2-5) (connected c1-5 c1-4)
  (connected c2-1 c1-1) (connected c2-1 c3-1)
  (connected c2-3 c3-3) (connected c2-3 c2-4)
  (connected c2-4 c1-4) (connected c2-4 c3-4) (connected c2-4 c2-3) (connected c2-4 c2-5)
  (connected c2-5 c1-5) (connected c2-5 c2-4)
  (connected c3-1 c2-1) (connected c3-1 c4-1) (connected c3-1 c3-2)
  (connected c3-2 c3-1) (connected c3-2 c3-3)
  (connected c3-3 c2-3) (connected c3-3 c4-3) (connected c3-3 c3-2) (connected c3-3 c3-4)
  (connected c3-4 c2-4) (connected c3-4 c4-4) (connected c3-4 c3-3)
  (connected c4-1 c3-1) (connected c4-1 c5-1)
  (connected c4-3 c3-3) (connected c4-3 c4-4)
  (connected c4-4 c3-4) (connected c4-4 c5-4) (connected c4-4 c4-3) (connected c4-4 c4-5)
  (connected c4-5 c5-5) (connected c4-5 c4-4)
  (connected c5-1 c4-1) (connected c5-1 c5-2)
  (connected c5-2 c5-1)
  (connected c5-4 c4-4) (connected c5-4 c5-5)
  (connected c5-5 c4-5) (connected c5-5 c5-4))
(:goal (and)))
