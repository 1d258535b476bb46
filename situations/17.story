16 events

event 0: process 8 creates a set of 2 semaphores, mode rw-rw-rw-
  line    0 0 0 0
  answer  done (0), the set's identifier is 0
  values  set 0: 0 0

event 1: process 8 sets semaphore 1 of set 0 to 1
  line    1 0 0 0
  answer  done (0), 0 looks
  values  set 0: 0 1

event 2: process 1 on set 0: take 1 from semaphore 0; wait for zero at semaphore 1 (nowait)
  line    2 -1@0 0 0
  answer  asleep (-1) at operation 0: semaphore 0 has value 0, the call wants 1
  values  set 0: 0 1
  waits   set 0, semaphore 0: 1 for increase, 0 for zero

event 3: process 8 sets semaphore 0 of set 0 to 1
  line    3 0 0 1 1=11@1
  answer  done (0), 1 look
  wakes   process 1: EAGAIN (11) at operation 1: semaphore 1 has value 1, the call wants zero; it
          stops now where nowait is given
  values  set 0: 1 1

event 4: process 8 sets semaphore 0 of set 0 to 0
  line    4 0 0 0
  answer  done (0), 0 looks
  values  set 0: 0 1

event 5: process 1 on set 0: take 1 from semaphore 0; add 32767 to semaphore 1
  line    5 -1@0 0 0
  answer  asleep (-1) at operation 0: semaphore 0 has value 0, the call wants 1
  values  set 0: 0 1
  waits   set 0, semaphore 0: 1 for increase, 0 for zero

event 6: process 2 on set 0: add 1 to semaphore 0
  line    6 0 0 1 1=34@1
  answer  done (0), 1 look
  wakes   process 1: ERANGE (34) at operation 1: semaphore 1 has value 1, plus 32767 is above 32767
  values  set 0: 1 1

event 7: process 8 queries semaphore 1 of set 0
  line    7 0 1 0 0 0
  answer  done (0), value 1, last process 0, waiting 0 for increase, 0 for zero
  values  set 0: 1 1

event 8: process 8 sets semaphore 0 of set 0 to 0
  line    8 0 0 0
  answer  done (0), 0 looks
  values  set 0: 0 1

event 9: process 8 sets semaphore 1 of set 0 to 32764
  line    9 0 0 0
  answer  done (0), 0 looks
  values  set 0: 0 32764

event 10: process 3 on set 0: take 1 from semaphore 0; add 1 to semaphore 1
  line    10 -1@0 0 0
  answer  asleep (-1) at operation 0: semaphore 0 has value 0, the call wants 1
  values  set 0: 0 32764
  waits   set 0, semaphore 0: 1 for increase, 0 for zero

event 11: process 4 on set 0: take 1 from semaphore 0; add 3 to semaphore 1
  line    11 -1@0 0 0
  answer  asleep (-1) at operation 0: semaphore 0 has value 0, the call wants 1
  values  set 0: 0 32764
  waits   set 0, semaphore 0: 2 for increase, 0 for zero

event 12: process 5 on set 0: take 1 from semaphore 0; take 32765 from semaphore 1
  line    12 -1@0 0 0
  answer  asleep (-1) at operation 0: semaphore 0 has value 0, the call wants 1
  values  set 0: 0 32764
  waits   set 0, semaphore 0: 3 for increase, 0 for zero

event 13: process 8 sets semaphore 0 of set 0 to 2
  line    13 0 0 3 3=0 4=34@1 5=0
  answer  done (0), 3 looks
  wakes   process 3: done (0)
  wakes   process 4: ERANGE (34) at operation 1: semaphore 1 has value 32765, plus 3 is above 32767
  wakes   process 5: done (0)
  values  set 0: 0 0

event 14: process 8 queries semaphore 0 of set 0
  line    14 0 0 5 0 0
  answer  done (0), value 0, last process 5, waiting 0 for increase, 0 for zero
  values  set 0: 0 0

event 15: process 8 queries semaphore 1 of set 0
  line    15 0 0 5 0 0
  answer  done (0), value 0, last process 5, waiting 0 for increase, 0 for zero
  values  set 0: 0 0
