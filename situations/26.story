8 events

event 0: process 8 creates a set of 2 semaphores, mode rw-rw-rw-
  line    0 0 0 0
  answer  done (0), the set's identifier is 0
  values  set 0: 0 0

event 1: process 1 on set 0, waiting 0 ms at most: add 1 to semaphore 0; take 1 from semaphore 1
  line    1 11@1 0 0
  answer  refused: EAGAIN (11) at operation 1: semaphore 1 has value 0, the call wants 1; it would
          have to sleep, but may not wait
  values  set 0: 0 0

event 2: process 1 on set 0, waiting 0 ms at most: add 1 to semaphore 0
  line    2 0 0 0
  answer  done (0), 0 looks
  values  set 0: 1 0

event 3: process 1 on set 0, waiting 0 ms at most: take 1 from semaphore 0; wait for zero at
          semaphore 1; take 1 from semaphore 0 (nowait)
  line    3 11@2 0 0
  answer  refused: EAGAIN (11) at operation 2: semaphore 0 has value 0 after operation 1, the call
          wants 1; it would have to sleep, but nowait is given
  values  set 0: 1 0

event 4: process 1 on set 0, waiting 0 ms at most: add 32767 to semaphore 0
  line    4 34@0 0 0
  answer  refused: ERANGE (34) at operation 0: semaphore 0 has value 1, plus 32767 is above 32767
  values  set 0: 1 0

event 5: process 1 on set 0, waiting 0 ms at most: take 1 from semaphore 1; wait for zero at
          semaphore 2
  line    5 27 0 0
  answer  refused: EFBIG (27), the set has no such semaphore
  values  set 0: 1 0

event 6: process 8 reads all of set 0
  line    6 0 1 0 0 0 0 0
  answer  done (0); semaphore 0: value 1; semaphore 1: value 0
  values  set 0: 1 0

event 7: the time is 0 ms
  line    7 0 0 0
  answer  done (0)
  values  set 0: 1 0
