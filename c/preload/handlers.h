/* The program's signal handlers. In place of each the kernel gets an entry of ours, with the program's flags and mask,
 * which ends the operate that the signal came into, if there is one, and then calls the program's. Programs see their
 * own. Handlers of faults (SIGSEGV, SIGBUS, SIGFPE, SIGILL, SIGTRAP) are given to the kernel as they are. */
#ifndef VAIROLENT_HANDLERS_H
#define VAIROLENT_HANDLERS_H

#include <signal.h>

#include "library.h"

/* sigaction, and the functions that are like signal: by is the C library's. */
int handlers_action(int number, const struct sigaction *action, struct sigaction *old);
sighandler_t handlers_set(int number, sighandler_t handler, sets_handler *by);

/* For a SIGSYS that is not the trap's: does what the program wants to be done with it. */
void handlers_pass(int number, siginfo_t *info, void *context);

#endif
