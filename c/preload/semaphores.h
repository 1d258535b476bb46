/* The four calls as the daemon answers them: the code is a number of <errno.h>, or 0, and then the value is what the
 * call returns. errno may change. */
#ifndef VAIROLENT_SEMAPHORES_H
#define VAIROLENT_SEMAPHORES_H

#include <sys/sem.h>
#include <time.h>

#include "protocol.h"

struct answer semaphores_get(key_t key, int count, int flags);

/* semop is this one without a time, a null pointer. */
struct answer semaphores_operate(int id, const struct sembuf *operations, unsigned count, const struct timespec *time);

/* The argument is the call's fourth, as it lies in its register; it is not looked at where the command has none. */
struct answer semaphores_control(int id, int number, int command, void *argument);

#endif
