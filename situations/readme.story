5 events

event 0: process 1 creates a set of 1 semaphore, mode rw-rw-rw-
  line    0 0 0 0
  answer  done (0), the set's identifier is 0
  values  set 0: 0

event 1: process 1 sets semaphore 0 of set 0 to 1
  line    1 0 0 0
  answer  done (0), 0 looks
  values  set 0: 1

event 2: process 1 on set 0: take 1 from semaphore 0 (undo)
  line    2 0 0 0
  answer  done (0), 0 looks
  values  set 0: 0

event 3: process 2 on set 0: take 1 from semaphore 0 (undo)
  line    3 -1@0 0 0
  answer  asleep (-1) at operation 0: semaphore 0 has value 0, the call wants 1
  values  set 0: 0
  waits   set 0, semaphore 0: 1 for increase, 0 for zero

event 4: process 1 exits
  line    4 0 0 1 2=0
  answer  done (0), 1 look
  wakes   process 2: done (0)
  values  set 0: 0
