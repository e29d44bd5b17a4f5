; From the hall doors lead to all other rooms, and one leads from the study to the bedroom. The light is on in the
; hall and in the bedroom. The cellar is locked, and its key is in the study, the one room that is not cold.
(define (problem evening) (:domain lights)
(:objects hall study bedroom cellar - room)
(:init
  (at hall) (lit hall) (lit bedroom) (locked cellar)
  (door hall study) (door study hall) (door hall bedroom) (door bedroom hall)
  (door study bedroom) (door bedroom study) (door hall cellar) (door cellar hall)
  (bed bedroom) (key study) (cold hall) (cold bedroom) (cold cellar))
(:goal (and)))
