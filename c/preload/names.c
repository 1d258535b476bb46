/* The four names that programs call, in place of the C library's. errno stays where a call succeeds. */
#define _GNU_SOURCE
#include <errno.h>
#include <stdarg.h>

#include "name.h"
#include "semaphores.h"

static int returned(int before, struct answer answer)
{
    errno = answer.code == 0 ? before : answer.code;
    return answer.code == 0 ? answer.value : -1;
}

NAME int semget(key_t key, int nsems, int semflg)
{
    int before = errno;
    return returned(before, semaphores_get(key, nsems, semflg));
}

/* The kernel counts operations in 32 bits. */
NAME int semtimedop(int semid, struct sembuf *sops, size_t nsops, const struct timespec *timeout)
{
    int before = errno;
    return returned(before, semaphores_operate(semid, sops, (unsigned)nsops, timeout));
}

NAME int semop(int semid, struct sembuf *sops, size_t nsops)
{
    return semtimedop(semid, sops, nsops, NULL);
}

/* The fourth argument is read for every command: on this machine it is a register, which commands without one leave
 * alone. */
NAME int semctl(int semid, int semnum, int cmd, ...)
{
    int before = errno;
    va_list arguments;
    va_start(arguments, cmd);
    void *argument = va_arg(arguments, void *);
    va_end(arguments);
    return returned(before, semaphores_control(semid, semnum, cmd, argument));
}
