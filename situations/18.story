6 events

event 0: process 8 creates a set of 2 semaphores, mode rw-rw-rw-
  line    0 0 0 0
  answer  done (0), the set's identifier is 0
  values  set 0: 0 0

event 1: process 1 on set 0: add 1 to semaphore 0, 31 times; take 1 from semaphore 1
  line    1 -1@31 0 0
  answer  asleep (-1) at operation 31: semaphore 1 has value 0, the call wants 1
  values  set 0: 0 0
  waits   set 0, semaphore 1: 1 for increase, 0 for zero

event 2: process 2 on set 0: take 2 from semaphore 1; add 1 to semaphore 0, 30 times; add 32767 to
          semaphore 0
  line    2 -1@0 0 0
  answer  asleep (-1) at operation 0: semaphore 1 has value 0, the call wants 2
  values  set 0: 0 0
  waits   set 0, semaphore 1: 2 for increase, 0 for zero

event 3: process 8 sets semaphore 1 of set 0 to 3
  line    3 0 0 2 1=0 2=34@31
  answer  done (0), 2 looks
  wakes   process 1: done (0)
  wakes   process 2: ERANGE (34) at operation 31: semaphore 0 has value 61 after operation 30, plus
          32767 is above 32767
  values  set 0: 31 2

event 4: process 8 queries semaphore 0 of set 0
  line    4 0 31 1 0 0
  answer  done (0), value 31, last process 1, waiting 0 for increase, 0 for zero
  values  set 0: 31 2

event 5: process 8 queries semaphore 1 of set 0
  line    5 0 2 1 0 0
  answer  done (0), value 2, last process 1, waiting 0 for increase, 0 for zero
  values  set 0: 31 2
