; Three balls lie in the hall, where the robot stands with two empty grippers.
(define (problem three-balls) (:domain gripper)
(:objects hall kitchen office - room red green blue - ball left right - gripper)
(:init
  (at-robot hall) (at red hall) (at green hall) (at blue hall)
  (free left) (free right))
(:goal (and)))
