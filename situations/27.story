12 events

event 0: process 8 creates a set of 1 semaphore, mode rw-rw-rw-
  line    0 0 0 0
  answer  done (0), the set's identifier is 0
  values  set 0: 0

event 1: the time is 1000 ms
  line    1 0 0 0
  answer  done (0)
  values  set 0: 0

event 2: process 1 on set 0, waiting 100 ms at most: take 1 from semaphore 0
  line    2 -1@0 0 0
  answer  asleep (-1) at operation 0: semaphore 0 has value 0, the call wants 1
  until   1100 ms
  values  set 0: 0
  waits   set 0, semaphore 0: 1 for increase, 0 for zero

event 3: the time is 999 ms
  line    3 22 0 0
  answer  refused: EINVAL (22): it is before 1000 ms, the time told last
  values  set 0: 0
  waits   set 0, semaphore 0: 1 for increase, 0 for zero

event 4: process 2 on set 0, waiting 100 ms at most: take 1 from semaphore 0
  line    4 -1@0 0 0
  answer  asleep (-1) at operation 0: semaphore 0 has value 0, the call wants 1
  until   1100 ms
  values  set 0: 0
  waits   set 0, semaphore 0: 2 for increase, 0 for zero

event 5: the time is 1000 ms
  line    5 0 0 0
  answer  done (0)
  values  set 0: 0
  waits   set 0, semaphore 0: 2 for increase, 0 for zero

event 6: the time is 9223372036854775808 ms
  line    6 22 0 0
  answer  refused: EINVAL (22): it is above 9223372036854775807 ms, the largest time
  values  set 0: 0
  waits   set 0, semaphore 0: 2 for increase, 0 for zero

event 7: the time is 18446744073709551615 ms
  line    7 22 0 0
  answer  refused: EINVAL (22): it is above 9223372036854775807 ms, the largest time
  values  set 0: 0
  waits   set 0, semaphore 0: 2 for increase, 0 for zero

event 8: the time is 1099 ms
  line    8 0 0 0
  answer  done (0)
  values  set 0: 0
  waits   set 0, semaphore 0: 2 for increase, 0 for zero

event 9: the time is 1100 ms
  line    9 0 0 0 1=11 2=11
  answer  done (0)
  wakes   process 1: EAGAIN (11): gave up waiting after 100 ms
  wakes   process 2: EAGAIN (11): gave up waiting after 100 ms
  values  set 0: 0

event 10: the time is 9223372036854775807 ms
  line    10 0 0 0
  answer  done (0)
  values  set 0: 0

event 11: the time is 9223372036854775806 ms
  line    11 22 0 0
  answer  refused: EINVAL (22): it is before 9223372036854775807 ms, the time told last
  values  set 0: 0
