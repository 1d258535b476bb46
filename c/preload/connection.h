/* The thread's connection to the daemon. */
#ifndef VAIROLENT_CONNECTION_H
#define VAIROLENT_CONNECTION_H

#include <stdbool.h>

/* Once for the process: reads the daemon's address from the environment, and sees to it that a connection is closed
 * where its thread ends, and in the child of a fork. */
void connection_prepare(void);

/* The descriptor of this thread's connection, made if there is none that can be used; -1 if the daemon cannot be
 * reached. */
int connection_get(void);

/* Is this descriptor, had earlier, still the thread's connection, and neither closed nor that of a parent? */
bool connection_is(int descriptor);

/* Closes it, unless the program has done so. */
void connection_close(void);

/* Shuts it down and makes another for the next call, but leaves its descriptor open for a call that still receives by
 * it, should that come back; one such is kept. */
void connection_leave(void);

/* That call has come back. */
void connection_let_go(int descriptor);

/* The daemon went away during a call, or turns us away. */
void connection_lost(void);

#endif
