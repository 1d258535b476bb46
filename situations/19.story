11 events

event 0: process 8 creates a set of 2 semaphores, mode rw-rw-rw-
  line    0 0 0 0
  answer  done (0), the set's identifier is 0
  values  set 0: 0 0

event 1: process 1 on set 0: take 1 from semaphore 0; take 1 from semaphore 1
  line    1 -1@0 0 0
  answer  asleep (-1) at operation 0: semaphore 0 has value 0, the call wants 1
  values  set 0: 0 0
  waits   set 0, semaphore 0: 1 for increase, 0 for zero

event 2: process 2 on set 0: take 1 from semaphore 0
  line    2 -1@0 0 0
  answer  asleep (-1) at operation 0: semaphore 0 has value 0, the call wants 1
  values  set 0: 0 0
  waits   set 0, semaphore 0: 2 for increase, 0 for zero

event 3: process 8 sets all of set 0 to 1, 1
  line    3 0 0 2 1=0
  answer  done (0), 2 looks
  wakes   process 1: done (0)
  values  set 0: 0 0
  waits   set 0, semaphore 0: 1 for increase, 0 for zero

event 4: process 8 reads all of set 0
  line    4 0 0 1 0 0 0 0
  answer  done (0); semaphore 0: value 0, waiting 1 for increase, 0 for zero; semaphore 1: value 0
  values  set 0: 0 0
  waits   set 0, semaphore 0: 1 for increase, 0 for zero

event 5: process 8 creates a set of 2 semaphores, mode rw-rw-rw-
  line    5 0 1 0
  answer  done (0), the set's identifier is 1
  values  set 0: 0 0
  values  set 1: 0 0
  waits   set 0, semaphore 0: 1 for increase, 0 for zero

event 6: process 3 on set 1: take 1 from semaphore 0; take 1 from semaphore 1
  line    6 -1@0 0 0
  answer  asleep (-1) at operation 0: semaphore 0 has value 0, the call wants 1
  values  set 0: 0 0
  values  set 1: 0 0
  waits   set 0, semaphore 0: 1 for increase, 0 for zero
  waits   set 1, semaphore 0: 1 for increase, 0 for zero

event 7: process 4 on set 1: take 1 from semaphore 0
  line    7 -1@0 0 0
  answer  asleep (-1) at operation 0: semaphore 0 has value 0, the call wants 1
  values  set 0: 0 0
  values  set 1: 0 0
  waits   set 0, semaphore 0: 1 for increase, 0 for zero
  waits   set 1, semaphore 0: 2 for increase, 0 for zero

event 8: process 8 sets semaphore 0 of set 1 to 1
  line    8 0 0 3 4=0
  answer  done (0), 3 looks
  wakes   process 4: done (0)
  values  set 0: 0 0
  values  set 1: 0 0
  waits   set 0, semaphore 0: 1 for increase, 0 for zero
  waits   set 1, semaphore 0: 1 for increase, 0 for zero

event 9: process 8 sets semaphore 1 of set 1 to 1
  line    9 0 0 1
  answer  done (0), 1 look
  values  set 0: 0 0
  values  set 1: 0 1
  waits   set 0, semaphore 0: 1 for increase, 0 for zero
  waits   set 1, semaphore 0: 1 for increase, 0 for zero

event 10: process 8 reads all of set 1
  line    10 0 0 1 0 1 0 0
  answer  done (0); semaphore 0: value 0, waiting 1 for increase, 0 for zero; semaphore 1: value 1
  values  set 0: 0 0
  values  set 1: 0 1
  waits   set 0, semaphore 0: 1 for increase, 0 for zero
  waits   set 1, semaphore 0: 1 for increase, 0 for zero
