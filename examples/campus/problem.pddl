; From the gate a path leads to the square, and from there to the other places.
(define (problem monday) (:domain campus)
(:objects gate square cafe hall gym - place lunch lecture seminar training - activity)
(:init
  (at gate)
  (path gate square) (path square gate)
  (path square cafe) (path cafe square)
  (path square library) (path library square)
  (path library hall) (path hall library)
  (path square gym) (path gym square)
  (offers cafe lunch) (offers hall lecture) (offers hall seminar) (offers gym training)
  (light lunch) (light lecture) (light training) (needs-book seminar))
(:goal (and)))
