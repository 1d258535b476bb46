11 events

event 0: process 1 acts as user 7, group 9
  line    0 0 0 0
  answer  done (0)
  values  no live set

event 1: process 2 acts as user 0, group 5
  line    1 0 0 0
  answer  done (0)
  values  no live set

event 2: process 3 acts as user 5, group 0
  line    2 0 0 0
  answer  done (0)
  values  no live set

event 3: process 1 (user 7, group 9) creates a set of 1 semaphore, mode ---------
  line    3 0 0 0
  answer  done (0), the set's identifier is 0
  values  set 0: 0

event 4: process 2 (user 0, group 5) sets semaphore 0 of set 0 to 3
  line    4 0 0 0
  answer  done (0), 0 looks
  values  set 0: 3

event 5: process 2 (user 0, group 5) on set 0: take 1 from semaphore 0
  line    5 0 0 0
  answer  done (0), 0 looks
  values  set 0: 2

event 6: process 2 (user 0, group 5) queries semaphore 0 of set 0
  line    6 0 2 2 0 0
  answer  done (0), value 2, last process 2, waiting 0 for increase, 0 for zero
  values  set 0: 2

event 7: process 2 (user 0, group 5) reads all of set 0
  line    7 0 2 0 0
  answer  done (0); semaphore 0: value 2
  values  set 0: 2

event 8: process 3 (user 5, group 0) sets all of set 0 to 4
  line    8 13 0 0
  answer  refused: EACCES (13): the set is user 7's of group 9, and others may not alter (---)
  values  set 0: 2

event 9: process 3 (user 5, group 0) reads all of set 0
  line    9 13
  answer  refused: EACCES (13): the set is user 7's of group 9, and others may not read (---)
  values  set 0: 2

event 10: process 2 (user 0, group 5) removes set 0
  line    10 0 0 0
  answer  done (0)
  values  no live set
