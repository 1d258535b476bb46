10 events

event 0: process 1 acts as user 7, group 9
  line    0 0 0 0
  answer  done (0)
  values  no live set

event 1: process 1 (user 7, group 9) creates a set of 1 semaphore, mode rw-------
  line    1 0 0 0
  answer  done (0), the set's identifier is 0
  values  set 0: 0

event 2: process 1 (user 7, group 9) on set 0: take 1 from semaphore 0
  line    2 -1@0 0 0
  answer  asleep (-1) at operation 0: semaphore 0 has value 0, the call wants 1
  values  set 0: 0
  waits   set 0, semaphore 0: 1 for increase, 0 for zero

event 3: process 1 (user 7, group 9) acts as user 8, group 9
  line    3 16 0 0
  answer  refused: EBUSY (16), the process is asleep
  values  set 0: 0
  waits   set 0, semaphore 0: 1 for increase, 0 for zero

event 4: process 2 sets semaphore 0 of set 0 to 1
  line    4 0 0 1 1=0
  answer  done (0), 1 look
  wakes   process 1: done (0)
  values  set 0: 0

event 5: process 2 queries semaphore 0 of set 0
  line    5 0 0 1 0 0
  answer  done (0), value 0, last process 1, waiting 0 for increase, 0 for zero
  values  set 0: 0

event 6: process 1 (user 7, group 9) acts as user 8, group 9
  line    6 0 0 0
  answer  done (0)
  values  set 0: 0

event 7: process 1 (user 8, group 9) on set 0: add 1 to semaphore 0
  line    7 13 0 0
  answer  refused: EACCES (13): the set is user 7's of group 9, and its group may not alter (---)
  values  set 0: 0

event 8: process 1 (user 8, group 9) acts as user 7, group 9
  line    8 0 0 0
  answer  done (0)
  values  set 0: 0

event 9: process 1 (user 7, group 9) on set 0: add 1 to semaphore 0
  line    9 0 0 0
  answer  done (0), 0 looks
  values  set 0: 1
