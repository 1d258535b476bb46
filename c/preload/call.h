/* A request to the daemon that is answered at once. Signals are held meanwhile. */
#ifndef VAIROLENT_CALL_H
#define VAIROLENT_CALL_H

#include <stddef.h>
#include <sys/sem.h>

#include "protocol.h"

enum { CALL_VALUES = 256 }; /* room for the values of a set */

/* The answer and its data, of which kind the request knows. */
struct reply {
    struct answer answer;
    union {
        uint16_t values[CALL_VALUES];
        struct status status;
        struct seminfo limits;
    } data;
};

/* Sends a request with its data. Code ENOSYS if there is no daemon. Returns how many bytes of data the reply has; the
 * rest is zero. errno may change. */
size_t call(struct request request, const void *data, size_t length, struct reply *reply);

#endif
