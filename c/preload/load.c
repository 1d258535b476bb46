#define _GNU_SOURCE
#include "load.h"

#include <pthread.h>
#include <stdatomic.h>
#include <stdbool.h>
#include <stddef.h>
#include <unistd.h>

#include "connection.h"
#include "signals.h"
#include "trap.h"

static void prepare(void)
{
    connection_prepare();
    trap_prepare();
}

void load(void)
{
    static pthread_once_t once = PTHREAD_ONCE_INIT;
    static atomic_bool done;
    if (done)
        return;
    struct held before = signals_hold();
    pthread_once(&once, prepare);
    done = true;
    signals_release(&before);
}

/* Linked with -z initfirst it runs before the constructors of other libraries, so that no raw call of theirs goes by,
 * and before the C library has found the environment. */
__attribute__((constructor)) static void loaded(int count, char **arguments, char **environment)
{
    struct held before = signals_hold();
    (void)count;
    (void)arguments;
    if (environ == NULL)
        environ = environment;
    load();
    sigdelset(&before.blocked, SIGSYS); /* a parent may have left it blocked, and the trap needs it */
    signals_release(&before);
}
