9 events

event 0: process 8 creates a set of 1 semaphore, mode rw-rw-rw-
  line    0 0 0 0
  answer  done (0), the set's identifier is 0
  values  set 0: 0

event 1: the time is 1000 ms
  line    1 0 0 0
  answer  done (0)
  values  set 0: 0

event 2: process 1 on set 0, waiting 250 ms at most: take 1 from semaphore 0
  line    2 -1@0 0 0
  answer  asleep (-1) at operation 0: semaphore 0 has value 0, the call wants 1
  until   1250 ms
  values  set 0: 0
  waits   set 0, semaphore 0: 1 for increase, 0 for zero

event 3: process 2 on set 0: take 1 from semaphore 0
  line    3 -1@0 0 0
  answer  asleep (-1) at operation 0: semaphore 0 has value 0, the call wants 1
  values  set 0: 0
  waits   set 0, semaphore 0: 2 for increase, 0 for zero

event 4: the time is 1249 ms
  line    4 0 0 0
  answer  done (0)
  values  set 0: 0
  waits   set 0, semaphore 0: 2 for increase, 0 for zero

event 5: process 8 reads all of set 0
  line    5 0 0 2 0
  answer  done (0); semaphore 0: value 0, waiting 2 for increase, 0 for zero
  values  set 0: 0
  waits   set 0, semaphore 0: 2 for increase, 0 for zero

event 6: the time is 1250 ms
  line    6 0 0 0 1=11
  answer  done (0)
  wakes   process 1: EAGAIN (11): gave up waiting after 250 ms
  values  set 0: 0
  waits   set 0, semaphore 0: 1 for increase, 0 for zero

event 7: process 8 reads all of set 0
  line    7 0 0 1 0
  answer  done (0); semaphore 0: value 0, waiting 1 for increase, 0 for zero
  values  set 0: 0
  waits   set 0, semaphore 0: 1 for increase, 0 for zero

event 8: process 1 on set 0: add 1 to semaphore 0
  line    8 0 0 1 2=0
  answer  done (0), 1 look
  wakes   process 2: done (0)
  values  set 0: 0
