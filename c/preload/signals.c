#define _GNU_SOURCE
#include "signals.h"

#include <errno.h>
#include <pthread.h>

struct held signals_hold(void)
{
    struct held before = {.error = errno};
    sigset_t all;
    sigfillset(&all);
    pthread_sigmask(SIG_SETMASK, &all, &before.blocked);
    pthread_setcancelstate(PTHREAD_CANCEL_DISABLE, &before.cancellation);
    return before;
}

void signals_release(const struct held *before)
{
    pthread_setcancelstate(before->cancellation, NULL);
    errno = before->error;
    pthread_sigmask(SIG_SETMASK, &before->blocked, NULL); /* last: a handler may not come back from here */
}
