/* The C library's own functions where we have the same names: they are found behind us. */
#ifndef VAIROLENT_LIBRARY_H
#define VAIROLENT_LIBRARY_H

#include <signal.h>

typedef sighandler_t sets_handler(int number, sighandler_t handler);

struct library {
    int (*sigaction)(int number, const struct sigaction *action, struct sigaction *old);
    sets_handler *signal, *sysv_signal, *sigset;
};

/* They are found at the first call, which is made when the library is loaded: a handler can make it from then on. */
const struct library *library(void);

#endif
