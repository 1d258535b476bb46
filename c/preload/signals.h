/* Where no handler of the program may run, as it could make a call itself or jump out: in an exchange with the daemon
 * that is not an operate, and while a connection is made or closed. */
#ifndef VAIROLENT_SIGNALS_H
#define VAIROLENT_SIGNALS_H

#include <signal.h>

/* The thread's state before its signals were held. */
struct held {
    sigset_t blocked;
    int cancellation;
    int error; /* its errno */
};

/* Between the two no handler runs in this thread, and it cannot be cancelled. The release puts errno back too. */
struct held signals_hold(void);
void signals_release(const struct held *before);

#endif
