9 events

event 0: process 8 creates a set of 1 semaphore, mode rw-rw-rw-
  line    0 0 0 0
  answer  done (0), the set's identifier is 0
  values  set 0: 0

event 1: process 8 creates a set of 1 semaphore, mode rw-rw-rw-
  line    1 0 1 0
  answer  done (0), the set's identifier is 1
  values  set 0: 0
  values  set 1: 0

event 2: process 3 on set 1, waiting 500 ms at most: take 1 from semaphore 0
  line    2 -1@0 0 0
  answer  asleep (-1) at operation 0: semaphore 0 has value 0, the call wants 1
  until   500 ms
  values  set 0: 0
  values  set 1: 0
  waits   set 1, semaphore 0: 1 for increase, 0 for zero

event 3: process 2 on set 1, waiting 601 ms at most: take 1 from semaphore 0
  line    3 -1@0 0 0
  answer  asleep (-1) at operation 0: semaphore 0 has value 0, the call wants 1
  until   601 ms
  values  set 0: 0
  values  set 1: 0
  waits   set 1, semaphore 0: 2 for increase, 0 for zero

event 4: process 1 on set 0, waiting 200 ms at most: take 1 from semaphore 0
  line    4 -1@0 0 0
  answer  asleep (-1) at operation 0: semaphore 0 has value 0, the call wants 1
  until   200 ms
  values  set 0: 0
  values  set 1: 0
  waits   set 0, semaphore 0: 1 for increase, 0 for zero
  waits   set 1, semaphore 0: 2 for increase, 0 for zero

event 5: the time is 600 ms
  line    5 0 0 0 3=11 1=11
  answer  done (0)
  wakes   process 3: EAGAIN (11): gave up waiting after 500 ms, over at 500 ms and told at 600 ms
  wakes   process 1: EAGAIN (11): gave up waiting after 200 ms, over at 200 ms and told at 600 ms
  values  set 0: 0
  values  set 1: 0
  waits   set 1, semaphore 0: 1 for increase, 0 for zero

event 6: process 8 reads all of set 0
  line    6 0 0 0 0
  answer  done (0); semaphore 0: value 0
  values  set 0: 0
  values  set 1: 0
  waits   set 1, semaphore 0: 1 for increase, 0 for zero

event 7: process 8 reads all of set 1
  line    7 0 0 1 0
  answer  done (0); semaphore 0: value 0, waiting 1 for increase, 0 for zero
  values  set 0: 0
  values  set 1: 0
  waits   set 1, semaphore 0: 1 for increase, 0 for zero

event 8: the time is 601 ms
  line    8 0 0 0 2=11
  answer  done (0)
  wakes   process 2: EAGAIN (11): gave up waiting after 601 ms
  values  set 0: 0
  values  set 1: 0
