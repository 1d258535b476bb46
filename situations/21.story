10 events

event 0: process 8 creates a set of 3 semaphores, mode rw-rw-rw-
  line    0 0 0 0
  answer  done (0), the set's identifier is 0
  values  set 0: 0 0 0

event 1: process 8 sets all of set 0 to 1, 0, 0
  line    1 0 0 0
  answer  done (0), 0 looks
  values  set 0: 1 0 0

event 2: process 1 on set 0: wait for zero at semaphore 0
  line    2 -1@0 0 0
  answer  asleep (-1) at operation 0: semaphore 0 has value 1, the call wants zero
  values  set 0: 1 0 0
  waits   set 0, semaphore 0: 0 for increase, 1 for zero

event 3: process 2 on set 0: take 1 from semaphore 1
  line    3 -1@0 0 0
  answer  asleep (-1) at operation 0: semaphore 1 has value 0, the call wants 1
  values  set 0: 1 0 0
  waits   set 0, semaphore 0: 0 for increase, 1 for zero
  waits   set 0, semaphore 1: 1 for increase, 0 for zero

event 4: process 3 on set 0: wait for zero at semaphore 1; wait for zero at semaphore 0
  line    4 -1@1 0 0
  answer  asleep (-1) at operation 1: semaphore 0 has value 1, the call wants zero
  values  set 0: 1 0 0
  waits   set 0, semaphore 0: 0 for increase, 2 for zero
  waits   set 0, semaphore 1: 1 for increase, 0 for zero

event 5: process 4 on set 0: take 1 from semaphore 0; take 1 from semaphore 1
  line    5 -1@1 0 0
  answer  asleep (-1) at operation 1: semaphore 1 has value 0, the call wants 1
  values  set 0: 1 0 0
  waits   set 0, semaphore 0: 0 for increase, 2 for zero
  waits   set 0, semaphore 1: 2 for increase, 0 for zero

event 6: process 8 reads all of set 0
  line    6 0 1 0 2 0 2 0 0 0 0
  answer  done (0); semaphore 0: value 1, waiting 0 for increase, 2 for zero; semaphore 1: value 0,
          waiting 2 for increase, 0 for zero; semaphore 2: value 0
  values  set 0: 1 0 0
  waits   set 0, semaphore 0: 0 for increase, 2 for zero
  waits   set 0, semaphore 1: 2 for increase, 0 for zero

event 7: process 8 reads all of set 7
  line    7 22
  answer  refused: EINVAL (22), no live set has this identifier
  values  set 0: 1 0 0
  waits   set 0, semaphore 0: 0 for increase, 2 for zero
  waits   set 0, semaphore 1: 2 for increase, 0 for zero

event 8: process 8 sets all of set 0 to 0, 0, 0
  line    8 0 0 4 1=0 3=0
  answer  done (0), 4 looks
  wakes   process 1: done (0)
  wakes   process 3: done (0)
  values  set 0: 0 0 0
  waits   set 0, semaphore 0: 1 for increase, 0 for zero
  waits   set 0, semaphore 1: 1 for increase, 0 for zero

event 9: process 8 reads all of set 0
  line    9 0 0 1 0 0 1 0 0 0 0
  answer  done (0); semaphore 0: value 0, waiting 1 for increase, 0 for zero; semaphore 1: value 0,
          waiting 1 for increase, 0 for zero; semaphore 2: value 0
  values  set 0: 0 0 0
  waits   set 0, semaphore 0: 1 for increase, 0 for zero
  waits   set 0, semaphore 1: 1 for increase, 0 for zero
