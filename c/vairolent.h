/* Vairolent: a service for System V semaphore sets whose every answer is proved.
 *
 * It is a library, not a kernel. A program keeps a host and hands it to each of eleven events (create, operate, set
 * value, set all, remove, signal, exit, clock, act as, query, read all); an event tells who sleeps, who is woken, with
 * which code and in which order, and which operation stopped whom, and the program acts on it. No function waits,
 * allocates, calls the system or keeps anything of its own: the time and the users, too, are what the program tells.
 * Two threads that share a host take turns by a lock of their own.
 *
 * Link with libvairolent.a. An answer's code is 0 (done), VAIROLENT_ASLEEP, or a number that <errno.h> names. */
#ifndef VAIROLENT_H
#define VAIROLENT_H

#include <stdbool.h>
#include <stddef.h>
#include <stdint.h>

#if !defined(__linux__) || !defined(__x86_64__) || defined(__ILP32__)
#error "libvairolent.a is for programs on x86-64 Linux"
#endif

#ifdef __cplusplus
extern "C" {
#endif

enum {
    VAIROLENT_SETS = 4,            /* slots for sets, numbered 0 to 3 */
    VAIROLENT_SEMAPHORES = 8,      /* a set has 1 to 8 semaphores */
    VAIROLENT_PROCESSES = 8,       /* processes are numbered 1 to 8 */
    VAIROLENT_OPERATIONS = 32,     /* 1 to 32 operations in one call */
    VAIROLENT_VALUE_MAX = 32767,   /* a value is 0 to 32,767, an undo adjustment -32,767 to 32,767 */
    VAIROLENT_MODE_MAX = 511,      /* the nine bits of a mode, 0777 */
    VAIROLENT_ASLEEP = -1,         /* the code of a call that sleeps; its position names the operation that stopped */
    VAIROLENT_OPERATION_BYTES = 6, /* an operation: the bytes of a struct sembuf */
    VAIROLENT_ROW_BYTES = 1917,    /* the bytes of a host's row */
    VAIROLENT_ADJUSTMENTS = 256    /* the undo adjustments of a host */
};

/* The last time that can be told, in milliseconds. */
#define VAIROLENT_TIME_MAX UINT64_C(9223372036854775807)

/* Which operation of an array decided, by its position from 0, if one did. There is one where judging did not let the
 * array through: with the VAIROLENT_ASLEEP, EAGAIN or ERANGE of an operate, and the EAGAIN or ERANGE of a waking. There
 * is none where the array is done, where a check before judging refuses it, in EIDRM, EINTR and the EAGAIN of a wait
 * that is over, and in any other event, the ERANGE of a set value or of a set all included. */
struct vairolent_position {
    bool there;
    uint8_t at; /* 0 to 31; 0 if there is none */
};

/* A sleeper that an event ended, and with which code: 0 its array was done; EAGAIN with a position, an operation that
 * has to sleep has IPC_NOWAIT; EAGAIN without one, its wait is over; ERANGE, a value or an adjustment would leave its
 * range; EIDRM, its set was removed; EINTR, a signal. The position is of the operation that now decided, which need not
 * be the one at which the call went to sleep. */
struct vairolent_waking {
    uint8_t process;
    uint8_t code;
    struct vairolent_position position;
};

/* All that the service holds: the sets, their sleepers, the processes' users and groups and the time last told in a row
 * of bytes, the undo adjustments, and the wakings of the last event, with zeros behind them.
 *
 * The premise of every event: the host handed in is as vairolent_fresh or the last event left it, byte for byte;
 * nothing checks that when the program runs, and of any other host nothing is promised. A copy of a host is a host. */
struct vairolent_host {
    uint8_t row[VAIROLENT_ROW_BYTES];
    int16_t adjustments[VAIROLENT_ADJUSTMENTS];
    struct vairolent_waking wakings[VAIROLENT_PROCESSES];
};

/* What an event tells. A refused event tells its code, the position if an operation decided, and zeros; it wakes
 * nobody, and leaves sets, undo adjustments, sleepers, users, groups and time exactly as they stood. */
struct vairolent_told {
    int32_t code;   /* 0, VAIROLENT_ASLEEP, or why the event is refused */
    uint32_t value; /* a create's: the identifier of its set; 0 of every other event */
    size_t looks;   /* how many times a sleeper was judged again, to see whether it wakes */
    size_t woken;   /* how many were woken: the first of the host's wakings, in the order in which they were ended */
    struct vairolent_position position; /* the call's operation that decided; each waking has its own */
};

/* What a query tells: a semaphore, and who waits for it now. */
struct vairolent_queried {
    int32_t code;          /* 0, or why the query is refused; then all else is 0 */
    uint16_t value;        /* 0 to 32,767 */
    uint8_t last;          /* the last process whose done array names it, 0 if none; settings and exits leave it */
    uint32_t increase;     /* how many sleepers wait for an increase */
    uint32_t zero;         /* how many wait for zero */
    uint8_t increase_mask; /* which processes wait for an increase: process p has bit p-1 */
    uint8_t zero_mask;     /* which wait for zero */
    uint32_t looks;        /* 0: a query wakes nobody */
};

/* What a read all tells, of the whole set: at each number what a query of that semaphore tells; 0 from the set's count
 * on. Each sleeper of the set is judged once for it, which is no look, and waits at one semaphore alone: so the wait
 * counts of a set add up to the arrays that were judged. */
struct vairolent_queried_set {
    int32_t code;                                 /* 0, or why it is refused; then all else is 0 */
    uint8_t count;                                /* how many semaphores the set has */
    uint32_t judged;                              /* how many arrays were judged: one for each sleeper of the set */
    uint16_t values[VAIROLENT_SEMAPHORES];        /* 0 to 32,767 */
    uint8_t lasts[VAIROLENT_SEMAPHORES];          /* the last process whose done array names it, 0 if none */
    uint32_t increase[VAIROLENT_SEMAPHORES];      /* how many sleepers wait there for an increase */
    uint32_t zero[VAIROLENT_SEMAPHORES];          /* how many wait there for zero */
    uint8_t increase_masks[VAIROLENT_SEMAPHORES]; /* which processes wait there for an increase */
    uint8_t zero_masks[VAIROLENT_SEMAPHORES];     /* which wait there for zero */
};

/* What the archive was built for, by the names of the constants above. */
struct vairolent_limits {
    size_t sets;
    size_t semaphores;
    size_t processes;
    size_t operations;
    size_t value_max;
    size_t mode_max;
    size_t row_bytes;
    size_t adjustments;
};

/* An operation as in <sys/sem.h>: number, amount, and the flags IPC_NOWAIT and SEM_UNDO; other flags are ignored. */
struct sembuf;

/* The limits of the archive. They are this header's, unless the two are not of one build. */
struct vairolent_limits vairolent_limits(void);

/* A fresh host: four free slots, every number and adjustment 0, every process of user 0 and group 0, no sleepers, and
 * time 0. */
struct vairolent_host vairolent_fresh(void);

/* The eleven events; read all is vairolent_query_set, and an operate has a wait or none. Each has a function of the
 * archive, NAME_in, whose promise is proved; it takes the parts of a host, which lie apart from each other and from the
 * operations or values. NAME takes a whole host and hands its parts on. Operations and values are the program's: they
 * are read while the call runs, and neither written nor kept. Every event but signal, exit and clock is the call of a
 * process, which has to be awake.
 *
 * How permission is judged: each process has a user and a group; each set has an owner and an owning group, which are
 * those that its creator had then, and the nine bits of a mode as chmod has them. A process whose user is the owner
 * goes by the first three bits; else one whose group is the owning group by the next three; any other by the last
 * three. No process goes by the bits of a second class, even where they permit what its own deny. Of the three, 4
 * permits reading (an operation with amount 0, a query, a read all), 2 altering (any other operation, a set value, a
 * set all), and 1 is kept and permits nothing. A set is removed by its owner alone, whatever the mode. User 0 may do
 * everything; group 0 is a group as any other. So 0640 lets the owner read and alter, the group read, and others
 * neither. Permission is judged by the process's present numbers when a call begins, and not again at its waking.
 *
 * How sleepers are woken: those of the set whose arrays name a semaphore whose value changed or was set are judged
 * again, oldest first. One that no longer sleeps is woken, with 0 and its array applied (it is then the last process of
 * all that the array names), or with EAGAIN or ERANGE; then those who name a semaphore whose value it changed are to be
 * judged too, and it begins again with the oldest, until nobody is left to be judged. So nobody sleeps on who could
 * finish. */

/* Operations or values as the archive takes them: of none the pointer may be null here, and is not there. */
static inline const uint8_t *vairolent_bytes(const void *first, size_t count)
{
    static const uint8_t none = 0;
    return count == 0 ? &none : (const uint8_t *)first;
}

/* How many bytes they have. Every number over the most is answered alike, so that they are counted without overflow. */
static inline size_t vairolent_byte_count(size_t count, size_t most, size_t each)
{
    return (count <= most ? count : most + 1) * each;
}

/* Makes a set of 1 to 8 semaphores with value 0 and this mode in the lowest free slot. Its owner and owning group are
 * the process's user and group, and stay so. The value told is its identifier: slot + 4 x generation, where the slot's
 * generation goes up by one at each removal, from 65,535 round to 0: a very old identifier can match again.
 * Refused, the first that applies: ESRCH process not 1 to 8; EBUSY it is asleep; EINVAL count 0 or over 8, or mode over
 * 0777; ENOSPC no free slot. */
struct vairolent_told vairolent_create_in(uint8_t *row, int16_t *adjustments, struct vairolent_waking *wakings,
                                          uint8_t process, uint8_t count, uint16_t mode);
static inline struct vairolent_told vairolent_create(struct vairolent_host *host, uint8_t process, uint8_t count,
                                                     uint16_t mode)
{
    return vairolent_create_in(host->row, host->adjustments, host->wakings, process, count, mode);
}

/* An array of operations of a process at a set, done as a whole or not at all, as semop does it. Each operation is
 * judged on what those before it leave: an amount above 0 is added to the value; one below 0 is taken from it, and
 * stops where the value is smaller; 0 stops where the value is not 0. With SEM_UNDO the amount is also subtracted from
 * the process's undo adjustment. The first operation that stops, or gives ERANGE, decides, and the position told is its
 * position: where it stops the process sleeps (VAIROLENT_ASLEEP) and nothing else changes. If none does the array is
 * done, the process becomes the last of every semaphore that the array names, amounts of 0 included, and sleepers are
 * woken. The archive's function takes the bytes of the operations, six for each, and whether there is a wait, and which.
 * Refused, the first that applies: ESRCH process not 1 to 8; EBUSY it is asleep; EINVAL no operations, or bytes not a
 * multiple of 6; E2BIG over 32 operations; EINVAL no such set; EFBIG a number at or above the set's count; EACCES one
 * of the operations is not permitted; then as the deciding operation has it, with its position: EAGAIN it stops and has
 * IPC_NOWAIT; ERANGE it would take its value, or with SEM_UNDO the adjustment, out of its range. */
struct vairolent_told vairolent_operate_in(uint8_t *row, int16_t *adjustments, struct vairolent_waking *wakings,
                                           uint8_t process, int32_t identifier, bool waits, uint32_t wait,
                                           const uint8_t *operations, size_t bytes);
static inline struct vairolent_told vairolent_operate(struct vairolent_host *host, uint8_t process, int32_t identifier,
                                                      const struct sembuf *operations, size_t count)
{
    return vairolent_operate_in(host->row, host->adjustments, host->wakings, process, identifier, false, 0,
                                vairolent_bytes(operations, count),
                                vairolent_byte_count(count, VAIROLENT_OPERATIONS, VAIROLENT_OPERATION_BYTES));
}

/* An operate with a wait in milliseconds, as semtimedop does it. All is as above, until the process would sleep: then
 * it sleeps until it is woken, or until vairolent_clock tells a time that is at or above its start plus its wait. Its
 * start is the time last told when it goes to sleep; no look changes it. The longest wait is a wait as any other: who
 * would wait for ever calls vairolent_operate.
 * Refused as above, and where the process would sleep and the wait is 0: EAGAIN, with the position of the operation
 * that stops. */
static inline struct vairolent_told vairolent_operate_within(struct vairolent_host *host, uint8_t process,
                                                             int32_t identifier, const struct sembuf *operations,
                                                             size_t count, uint32_t wait)
{
    return vairolent_operate_in(host->row, host->adjustments, host->wakings, process, identifier, true, wait,
                                vairolent_bytes(operations, count),
                                vairolent_byte_count(count, VAIROLENT_OPERATIONS, VAIROLENT_OPERATION_BYTES));
}

/* Sets the value of a semaphore, forgets all undo adjustments of it, and wakes sleepers, even if the value is the same.
 * Refused, the first that applies: ESRCH process not 1 to 8; EBUSY it is asleep; EINVAL no such set; EACCES altering is
 * not permitted; EINVAL a number at or above the set's count; ERANGE value not 0 to 32,767. */
struct vairolent_told vairolent_set_value_in(uint8_t *row, int16_t *adjustments, struct vairolent_waking *wakings,
                                             uint8_t process, int32_t identifier, uint16_t number, int32_t value);
static inline struct vairolent_told vairolent_set_value(struct vairolent_host *host, uint8_t process,
                                                        int32_t identifier, uint16_t number, int32_t value)
{
    return vairolent_set_value_in(host->row, host->adjustments, host->wakings, process, identifier, number, value);
}

/* Sets the values of all semaphores of a set at once, from semaphore 0 on, forgets all undo adjustments of the set, and
 * then wakes its sleepers, even if the values are the same; nobody is judged while only some of them are set. The last
 * processes stay. The archive's function takes the bytes of the values, four for each, little-endian and signed, at any
 * address: so they stand in a run file, and in an array of int32_t.
 * Refused, the first that applies: ESRCH process not 1 to 8; EBUSY it is asleep; EINVAL no such set; EACCES altering is
 * not permitted; EINVAL the number of values is not the set's count, or bytes not a multiple of 4; ERANGE one of the
 * values not 0 to 32,767. */
struct vairolent_told vairolent_set_all_in(uint8_t *row, int16_t *adjustments, struct vairolent_waking *wakings,
                                           uint8_t process, int32_t identifier, const uint8_t *values, size_t bytes);
static inline struct vairolent_told vairolent_set_all(struct vairolent_host *host, uint8_t process, int32_t identifier,
                                                      const int32_t *values, size_t count)
{
    return vairolent_set_all_in(host->row, host->adjustments, host->wakings, process, identifier,
                                vairolent_bytes(values, count),
                                vairolent_byte_count(count, VAIROLENT_SEMAPHORES, sizeof *values));
}

/* Removes a set and frees its slot. Its sleepers are woken with EIDRM, oldest first.
 * Refused, the first that applies: ESRCH process not 1 to 8; EBUSY it is asleep; EINVAL no such set; EPERM the process
 * is neither of the set's owner nor of user 0. */
struct vairolent_told vairolent_remove_in(uint8_t *row, int16_t *adjustments, struct vairolent_waking *wakings,
                                          uint8_t process, int32_t identifier);
static inline struct vairolent_told vairolent_remove(struct vairolent_host *host, uint8_t process, int32_t identifier)
{
    return vairolent_remove_in(host->row, host->adjustments, host->wakings, process, identifier);
}

/* A signal for a process: if it sleeps it is woken with EINTR, if it is awake nothing changes.
 * Refused: ESRCH process not 1 to 8. */
struct vairolent_told vairolent_signal_in(uint8_t *row, int16_t *adjustments, struct vairolent_waking *wakings,
                                          uint8_t process);
static inline struct vairolent_told vairolent_signal(struct vairolent_host *host, uint8_t process)
{
    return vairolent_signal_in(host->row, host->adjustments, host->wakings, process);
}

/* The end of a process. If it sleeps it is taken out, without a waking. Each of its undo adjustments is added to its
 * semaphore, cut to 0 to 32,767, and set to zero; then sleepers are woken, set by set from slot 0 up. Its user and
 * group stay, for the next process by that number: act as tells others.
 * Refused: ESRCH process not 1 to 8. */
struct vairolent_told vairolent_exit_in(uint8_t *row, int16_t *adjustments, struct vairolent_waking *wakings,
                                        uint8_t process);
static inline struct vairolent_told vairolent_exit(struct vairolent_host *host, uint8_t process)
{
    return vairolent_exit_in(host->row, host->adjustments, host->wakings, process);
}

/* Tells the present time, in milliseconds since any moment that the program keeps to; 0 was told before the first. Each
 * sleeper with a wait whose start plus wait, as an exact sum, is at or below it is woken with EAGAIN, oldest first over
 * all sets, and nothing of its array is done. Nobody is judged for it, and nobody else woken: no value changed. Between
 * two times that are told no wait ends, and who is past its own can still be woken with 0; so tell the time before the
 * events of a new moment, and when a wait runs out.
 * Refused: EINVAL a time below the last told, or above VAIROLENT_TIME_MAX; it is not told then. */
struct vairolent_told vairolent_clock_in(uint8_t *row, int16_t *adjustments, struct vairolent_waking *wakings,
                                         uint64_t time);
static inline struct vairolent_told vairolent_clock(struct vairolent_host *host, uint64_t time)
{
    return vairolent_clock_in(host->row, host->adjustments, host->wakings, time);
}

/* Tells the user and the group of a process, by which its calls are permitted from then on; no permission is asked for
 * it. The sets that it has made keep their owner and owning group.
 * Refused, the first that applies: ESRCH process not 1 to 8; EBUSY it is asleep. */
struct vairolent_told vairolent_act_as_in(uint8_t *row, int16_t *adjustments, struct vairolent_waking *wakings,
                                          uint8_t process, uint32_t user, uint32_t group);
static inline struct vairolent_told vairolent_act_as(struct vairolent_host *host, uint8_t process, uint32_t user,
                                                     uint32_t group)
{
    return vairolent_act_as_in(host->row, host->adjustments, host->wakings, process, user, group);
}

/* Shows a semaphore. The host stays as it is.
 * Refused, the first that applies: ESRCH process not 1 to 8; EBUSY it is asleep; EINVAL no such set; EACCES reading is
 * not permitted; EINVAL a number at or above the set's count. */
struct vairolent_queried vairolent_query_in(const uint8_t *row, const int16_t *adjustments, uint8_t process,
                                            int32_t identifier, uint16_t number);
static inline struct vairolent_queried vairolent_query(const struct vairolent_host *host, uint8_t process,
                                                       int32_t identifier, uint16_t number)
{
    return vairolent_query_in(host->row, host->adjustments, process, identifier, number);
}

/* Reads all values of a set at once, and with them all else that queries show: all its semaphores, by judging each of
 * its sleepers once, where a query of each semaphore would judge them again and again. The host stays as it is. A run
 * file's kind 11 is this event; its line has the code, and then value, increase and zero of each semaphore below the
 * count.
 * Refused, the first that applies: ESRCH process not 1 to 8; EBUSY it is asleep; EINVAL no such set; EACCES reading is
 * not permitted. */
struct vairolent_queried_set vairolent_query_set_in(const uint8_t *row, const int16_t *adjustments, uint8_t process,
                                                    int32_t identifier);
static inline struct vairolent_queried_set vairolent_query_set(const struct vairolent_host *host, uint8_t process,
                                                               int32_t identifier)
{
    return vairolent_query_set_in(host->row, host->adjustments, process, identifier);
}

#ifdef __cplusplus
}
#endif

#endif
