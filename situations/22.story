12 events

event 0: process 8 creates a set of 3 semaphores, mode rw-rw-rw-
  line    0 0 0 0
  answer  done (0), the set's identifier is 0
  values  set 0: 0 0 0

event 1: process 8 sets all of set 0 to 32767, 0, 0
  line    1 0 0 0
  answer  done (0), 0 looks
  values  set 0: 32767 0 0

event 2: process 1 on set 0: take 32767 from semaphore 0 (undo)
  line    2 0 0 0
  answer  done (0), 0 looks
  values  set 0: 0 0 0

event 3: process 2 on set 0: add 5 to semaphore 2 (undo)
  line    3 0 0 0
  answer  done (0), 0 looks
  values  set 0: 0 0 5

event 4: process 1 on set 0: add 20000 to semaphore 0 (undo); take 20000 from semaphore 0; add 20000
          to semaphore 0 (undo); take 1 from semaphore 1
  line    4 -1@3 0 0
  answer  asleep (-1) at operation 3: semaphore 1 has value 0, the call wants 1
  values  set 0: 0 0 5
  waits   set 0, semaphore 1: 1 for increase, 0 for zero

event 5: process 3 on set 0: take 6 from semaphore 2
  line    5 -1@0 0 0
  answer  asleep (-1) at operation 0: semaphore 2 has value 5, the call wants 6
  values  set 0: 0 0 5
  waits   set 0, semaphore 1: 1 for increase, 0 for zero
  waits   set 0, semaphore 2: 1 for increase, 0 for zero

event 6: process 8 sets all of set 0 to 0, 0, 5
  line    6 0 0 2 1=34@2
  answer  done (0), 2 looks
  wakes   process 1: ERANGE (34) at operation 2: the process's undo adjustment of semaphore 0 would
          leave -32767 to 32767
  values  set 0: 0 0 5
  waits   set 0, semaphore 2: 1 for increase, 0 for zero

event 7: process 2 exits
  line    7 0 0 0
  answer  done (0), 0 looks
  values  set 0: 0 0 5
  waits   set 0, semaphore 2: 1 for increase, 0 for zero

event 8: process 8 reads all of set 0
  line    8 0 0 0 0 0 0 0 5 1 0
  answer  done (0); semaphore 0: value 0; semaphore 1: value 0; semaphore 2: value 5, waiting 1 for
          increase, 0 for zero
  values  set 0: 0 0 5
  waits   set 0, semaphore 2: 1 for increase, 0 for zero

event 9: process 8 queries semaphore 0 of set 0
  line    9 0 0 1 0 0
  answer  done (0), value 0, last process 1, waiting 0 for increase, 0 for zero
  values  set 0: 0 0 5
  waits   set 0, semaphore 2: 1 for increase, 0 for zero

event 10: process 8 queries semaphore 1 of set 0
  line    10 0 0 0 0 0
  answer  done (0), value 0, last process 0, waiting 0 for increase, 0 for zero
  values  set 0: 0 0 5
  waits   set 0, semaphore 2: 1 for increase, 0 for zero

event 11: process 8 queries semaphore 2 of set 0
  line    11 0 5 2 1 0
  answer  done (0), value 5, last process 2, waiting 1 for increase, 0 for zero
  values  set 0: 0 0 5
  waits   set 0, semaphore 2: 1 for increase, 0 for zero
