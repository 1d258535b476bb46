/* What a program and vairolentd say to each other: packets of a Unix socket of type SOCK_SEQPACKET. Each thread has a
 * connection of its own, and at most one call in it: it sends a request and gets one answer, at once or, where the call
 * sleeps, when it ends. Whose call it is the daemon asks the system, by the socket. Numbers are little-endian.
 * rust/vairolentd/src/message.rs says the same for the daemon. */
#ifndef VAIROLENT_PROTOCOL_H
#define VAIROLENT_PROTOCOL_H

#include <stdint.h>

enum { PROTOCOL_VERSION = 1 };

enum request_kind {
    REQUEST_GET = 1,     /* words: key, nsems, flags. Value: the identifier */
    REQUEST_OPERATE = 2, /* words: identifier, 0, 0; data: a struct sembuf for each operation. Only this call sleeps */
    REQUEST_CONTROL = 3, /* words: identifier, number, command (a number of <sys/sem.h>); data: see below */
    REQUEST_CANCEL = 4,  /* a signal for the call that sleeps here: it ends with EINTR. It has no answer of its own, and
                            where no call sleeps it does nothing: then that call's answer is on its way */
    REQUEST_COUNT = 5,   /* words: identifier, 1 to alter or 0 to read, 0. Value: how many semaphores the set has */
    REQUEST_STATUS = 6   /* data of the answer: a text for people */
};

/* Ahead of a request's data. Data of a control: SETVAL, the value as int32_t; SETALL, each value as uint16_t. */
struct request {
    uint16_t version; /* PROTOCOL_VERSION */
    uint16_t kind;
    int32_t words[3];
    int64_t wait; /* of an operate: nanoseconds, or -1 for no limit; else 0 */
};

/* Ahead of an answer's data. Data of a control: GETALL, each value as uint16_t; IPC_STAT, SEM_STAT and SEM_STAT_ANY, a
 * struct status; IPC_INFO and SEM_INFO, a struct seminfo. */
struct answer {
    int32_t code; /* 0, or a number of <errno.h> */
    int32_t value;
};

struct status {
    uint32_t key, uid, gid, cuid, cgid, mode, seq, nsems;
    int64_t otime, ctime;
};

#endif
