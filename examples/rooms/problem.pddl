(define (problem Night) (:init (lit) (at r2 lobby))
(:goal (at r2 cellar))
(:objects R2 - robot lamp - thing cellar attic - room)
(:domain rooms))
