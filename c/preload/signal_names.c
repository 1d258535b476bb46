/* The names by which programs install handlers, in place of the C library's. siginterrupt and system are not among
 * them: the C library's read from the kernel what they then put back, and so our entry stays. Nor is sigvec, which only
 * programs of before 2015 can call: its handlers are entered past us. */
#define _GNU_SOURCE
#include "handlers.h"
#include "name.h"

NAME int sigaction(int number, const struct sigaction *action, struct sigaction *old)
{
    return handlers_action(number, action, old);
}

NAME int __sigaction(int number, const struct sigaction *action, struct sigaction *old)
{
    return handlers_action(number, action, old);
}

NAME sighandler_t signal(int number, sighandler_t handler)
{
    return handlers_set(number, handler, library()->signal);
}

NAME sighandler_t bsd_signal(int number, sighandler_t handler)
{
    return handlers_set(number, handler, library()->signal);
}

NAME sighandler_t ssignal(int number, sighandler_t handler)
{
    return handlers_set(number, handler, library()->signal);
}

NAME sighandler_t sysv_signal(int number, sighandler_t handler)
{
    return handlers_set(number, handler, library()->sysv_signal);
}

NAME sighandler_t __sysv_signal(int number, sighandler_t handler)
{
    return handlers_set(number, handler, library()->sysv_signal);
}

NAME sighandler_t sigset(int number, sighandler_t handler)
{
    return handlers_set(number, handler, library()->sigset);
}
