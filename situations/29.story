18 events

event 0: process 1 acts as user 7, group 9
  line    0 0 0 0
  answer  done (0)
  values  no live set

event 1: process 2 acts as user 8, group 9
  line    1 0 0 0
  answer  done (0)
  values  no live set

event 2: process 3 acts as user 8, group 8
  line    2 0 0 0
  answer  done (0)
  values  no live set

event 3: process 1 (user 7, group 9) creates a set of 1 semaphore, mode ---rw----
  line    3 0 0 0
  answer  done (0), the set's identifier is 0
  values  set 0: 0

event 4: process 1 (user 7, group 9) queries semaphore 0 of set 0
  line    4 13 0 0 0 0
  answer  refused: EACCES (13): the set is user 7's of group 9, and its owner may not read (---)
  values  set 0: 0

event 5: process 1 (user 7, group 9) sets semaphore 0 of set 0 to 1
  line    5 13 0 0
  answer  refused: EACCES (13): the set is user 7's of group 9, and its owner may not alter (---)
  values  set 0: 0

event 6: process 1 (user 7, group 9) on set 0: add 1 to semaphore 0
  line    6 13 0 0
  answer  refused: EACCES (13): the set is user 7's of group 9, and its owner may not alter (---)
  values  set 0: 0

event 7: process 2 (user 8, group 9) sets semaphore 0 of set 0 to 1
  line    7 0 0 0
  answer  done (0), 0 looks
  values  set 0: 1

event 8: process 2 (user 8, group 9) queries semaphore 0 of set 0
  line    8 0 1 0 0 0
  answer  done (0), value 1, last process 0, waiting 0 for increase, 0 for zero
  values  set 0: 1

event 9: process 3 (user 8, group 8) queries semaphore 0 of set 0
  line    9 13 0 0 0 0
  answer  refused: EACCES (13): the set is user 7's of group 9, and others may not read (---)
  values  set 0: 1

event 10: process 1 (user 7, group 9) creates a set of 1 semaphore, mode ---r---w-
  line    10 0 1 0
  answer  done (0), the set's identifier is 1
  values  set 0: 1
  values  set 1: 0

event 11: process 2 (user 8, group 9) queries semaphore 0 of set 1
  line    11 0 0 0 0 0
  answer  done (0), value 0, last process 0, waiting 0 for increase, 0 for zero
  values  set 0: 1
  values  set 1: 0

event 12: process 2 (user 8, group 9) sets semaphore 0 of set 1 to 1
  line    12 13 0 0
  answer  refused: EACCES (13): the set is user 7's of group 9, and its group may not alter (r--)
  values  set 0: 1
  values  set 1: 0

event 13: process 3 (user 8, group 8) queries semaphore 0 of set 1
  line    13 13 0 0 0 0
  answer  refused: EACCES (13): the set is user 7's of group 9, and others may not read (-w-)
  values  set 0: 1
  values  set 1: 0

event 14: process 3 (user 8, group 8) sets semaphore 0 of set 1 to 1
  line    14 0 0 0
  answer  done (0), 0 looks
  values  set 0: 1
  values  set 1: 1

event 15: process 3 (user 8, group 8) on set 1: take 1 from semaphore 0; wait for zero at semaphore
          0
  line    15 13 0 0
  answer  refused: EACCES (13): the set is user 7's of group 9, and others may not read (-w-)
  values  set 0: 1
  values  set 1: 1

event 16: process 3 (user 8, group 8) on set 1: take 1 from semaphore 0
  line    16 0 0 0
  answer  done (0), 0 looks
  values  set 0: 1
  values  set 1: 0

event 17: process 2 (user 8, group 9) on set 1: wait for zero at semaphore 0
  line    17 0 0 0
  answer  done (0), 0 looks
  values  set 0: 1
  values  set 1: 0
