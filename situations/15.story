8 events

event 0: process 8 creates a set of 2 semaphores, mode rw-rw-rw-
  line    0 0 0 0
  answer  done (0), the set's identifier is 0
  values  set 0: 0 0

event 1: process 8 sets semaphore 0 of set 0 to 1
  line    1 0 0 0
  answer  done (0), 0 looks
  values  set 0: 1 0

event 2: process 2 on set 0: wait for zero at semaphore 0; wait for zero at semaphore 1
  line    2 -1@0 0 0
  answer  asleep (-1) at operation 0: semaphore 0 has value 1, the call wants zero
  values  set 0: 1 0
  waits   set 0, semaphore 0: 0 for increase, 1 for zero

event 3: process 8 queries semaphore 0 of set 0
  line    3 0 1 0 0 1
  answer  done (0), value 1, last process 0, waiting 0 for increase, 1 for zero
  values  set 0: 1 0
  waits   set 0, semaphore 0: 0 for increase, 1 for zero

event 4: process 8 queries semaphore 1 of set 0
  line    4 0 0 0 0 0
  answer  done (0), value 0, last process 0, waiting 0 for increase, 0 for zero
  values  set 0: 1 0
  waits   set 0, semaphore 0: 0 for increase, 1 for zero

event 5: process 3 on set 0: take 1 from semaphore 0
  line    5 0 0 1 2=0
  answer  done (0), 1 look
  wakes   process 2: done (0)
  values  set 0: 0 0

event 6: process 8 queries semaphore 0 of set 0
  line    6 0 0 2 0 0
  answer  done (0), value 0, last process 2, waiting 0 for increase, 0 for zero
  values  set 0: 0 0

event 7: process 8 queries semaphore 1 of set 0
  line    7 0 0 2 0 0
  answer  done (0), value 0, last process 2, waiting 0 for increase, 0 for zero
  values  set 0: 0 0
