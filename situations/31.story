12 events

event 0: process 1 acts as user 7, group 9
  line    0 0 0 0
  answer  done (0)
  values  no live set

event 1: process 2 acts as user 8, group 9
  line    1 0 0 0
  answer  done (0)
  values  no live set

event 2: process 1 (user 7, group 9) creates a set of 1 semaphore, mode rw-rw-rw-
  line    2 0 0 0
  answer  done (0), the set's identifier is 0
  values  set 0: 0

event 3: process 2 (user 8, group 9) removes set 0
  line    3 1 0 0
  answer  refused: EPERM (1): the set is user 7's, and only its owner and user 0 may remove it
  values  set 0: 0

event 4: process 1 (user 7, group 9) acts as user 8, group 9
  line    4 0 0 0
  answer  done (0)
  values  set 0: 0

event 5: process 1 (user 8, group 9) removes set 0
  line    5 1 0 0
  answer  refused: EPERM (1): the set is user 7's, and only its owner and user 0 may remove it
  values  set 0: 0

event 6: process 2 (user 8, group 9) acts as user 7, group 1
  line    6 0 0 0
  answer  done (0)
  values  set 0: 0

event 7: process 2 (user 7, group 1) removes set 0
  line    7 0 0 0
  answer  done (0)
  values  no live set

event 8: process 2 (user 7, group 1) removes set 0
  line    8 22 0 0
  answer  refused: EINVAL (22), no live set has this identifier
  values  no live set

event 9: process 1 (user 8, group 9) creates a set of 1 semaphore, mode rw-rw-rw-
  line    9 0 4 0
  answer  done (0), the set's identifier is 4
  values  set 4: 0

event 10: process 2 (user 7, group 1) removes set 4
  line    10 1 0 0
  answer  refused: EPERM (1): the set is user 8's, and only its owner and user 0 may remove it
  values  set 4: 0

event 11: process 1 (user 8, group 9) removes set 4
  line    11 0 0 0
  answer  done (0)
  values  no live set
