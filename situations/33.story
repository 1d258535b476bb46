17 events

event 0: process 8 creates a set of 1 semaphore, mode rw-rw-rw-
  line    0 0 0 0
  answer  done (0), the set's identifier is 0
  values  set 0: 0

event 1: process 1 acts as user 7, group 9
  line    1 0 0 0
  answer  done (0)
  values  set 0: 0

event 2: process 1 (user 7, group 9) on set 0: take 1 from semaphore 0
  line    2 -1@0 0 0
  answer  asleep (-1) at operation 0: semaphore 0 has value 0, the call wants 1
  values  set 0: 0
  waits   set 0, semaphore 0: 1 for increase, 0 for zero

event 3: process 1 (user 7, group 9) queries semaphore 0 of set 0
  line    3 16 0 0 0 0
  answer  refused: EBUSY (16), the process is asleep
  values  set 0: 0
  waits   set 0, semaphore 0: 1 for increase, 0 for zero

event 4: process 1 (user 7, group 9) queries semaphore 9 of set 1
  line    4 16 0 0 0 0
  answer  refused: EBUSY (16), the process is asleep
  values  set 0: 0
  waits   set 0, semaphore 0: 1 for increase, 0 for zero

event 5: process 1 (user 7, group 9) reads all of set 0
  line    5 16
  answer  refused: EBUSY (16), the process is asleep
  values  set 0: 0
  waits   set 0, semaphore 0: 1 for increase, 0 for zero

event 6: process 1 (user 7, group 9) creates a set of 0 semaphores, mode 1000
  line    6 16 0 0
  answer  refused: EBUSY (16), the process is asleep
  values  set 0: 0
  waits   set 0, semaphore 0: 1 for increase, 0 for zero

event 7: process 1 (user 7, group 9) sets semaphore 0 of set 0 to 1
  line    7 16 0 0
  answer  refused: EBUSY (16), the process is asleep
  values  set 0: 0
  waits   set 0, semaphore 0: 1 for increase, 0 for zero

event 8: process 1 (user 7, group 9) sets all of set 0 to 1
  line    8 16 0 0
  answer  refused: EBUSY (16), the process is asleep
  values  set 0: 0
  waits   set 0, semaphore 0: 1 for increase, 0 for zero

event 9: process 1 (user 7, group 9) removes set 0
  line    9 16 0 0
  answer  refused: EBUSY (16), the process is asleep
  values  set 0: 0
  waits   set 0, semaphore 0: 1 for increase, 0 for zero

event 10: process 1 (user 7, group 9) acts as user 8, group 8
  line    10 16 0 0
  answer  refused: EBUSY (16), the process is asleep
  values  set 0: 0
  waits   set 0, semaphore 0: 1 for increase, 0 for zero

event 11: process 9 queries semaphore 0 of set 0
  line    11 3 0 0 0 0
  answer  refused: ESRCH (3), no such process
  values  set 0: 0
  waits   set 0, semaphore 0: 1 for increase, 0 for zero

event 12: process 0 creates a set of 0 semaphores, mode 1000
  line    12 3 0 0
  answer  refused: ESRCH (3), no such process
  values  set 0: 0
  waits   set 0, semaphore 0: 1 for increase, 0 for zero

event 13: process 1 (user 7, group 9) exits
  line    13 0 0 0
  answer  done (0), 0 looks
  values  set 0: 0

event 14: process 1 (user 7, group 9) creates a set of 1 semaphore, mode ---rwxrwx
  line    14 0 1 0
  answer  done (0), the set's identifier is 1
  values  set 0: 0
  values  set 1: 0

event 15: process 1 (user 7, group 9) queries semaphore 0 of set 1
  line    15 13 0 0 0 0
  answer  refused: EACCES (13): the set is user 7's of group 9, and its owner may not read (---)
  values  set 0: 0
  values  set 1: 0

event 16: process 1 (user 7, group 9) removes set 1
  line    16 0 0 0
  answer  done (0)
  values  set 0: 0
