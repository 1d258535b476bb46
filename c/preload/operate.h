/* The one call that sleeps. No signal is blocked for it: handlers run in the thread that the kernel chooses, at any
 * moment. In the kernel a call has left its queue before a handler runs, and a handler may never come back to it: it
 * jumps out, ends the program, or makes calls of its own. So whoever enters a handler (handlers.h) ends the call first.
 *
 * A handler that is entered past us, as it was installed by a raw system call, runs while its call still sleeps. That
 * is ended at the thread's next call, or when the handler comes back. */
#ifndef VAIROLENT_OPERATE_H
#define VAIROLENT_OPERATE_H

#include <signal.h>
#include <stddef.h>

#include "protocol.h"

/* Its answer: EFAULT if the data cannot be read, ENOSYS if there is no daemon, EIDRM if the daemon ends meanwhile. The
 * errno may change. */
struct answer operate(const struct request *request, const void *data, size_t length);

/* If the thread was interrupted in an operate that was sent, ends it: its answer is there from then on. errno stays. */
void operate_end(void);

/* The same for a call that the thread makes in a handler which was entered past us. */
void operate_end_outside(void);

/* Calls a handler when its operate has ended. */
void operate_enter(void (*handler)(int, siginfo_t *, void *), int number, siginfo_t *info, void *context);

#endif
