/* Holds the sizes, offsets and constants of vairolent.h to those of the archive.
 *
 * Sizes are measured: the platform's convention returns a struct of more than 16 bytes by writing it where the first
 * argument points, so a call into memory filled twice, with different bytes, shows which bytes the archive writes.
 * Offsets show where answers have another number in every field, constants in what the events accept. */
#include <errno.h>

#include "wanted.h"

/* The archive's functions as the convention has them. */
extern void *raw_limits(void *result) __asm__("vairolent_limits");
extern void *raw_fresh(void *result) __asm__("vairolent_fresh");
extern void *raw_signal(void *result, uint8_t *, int16_t *, struct vairolent_waking *, uint8_t)
    __asm__("vairolent_signal_in");
extern void *raw_query(void *result, const uint8_t *, const int16_t *, uint8_t, int32_t, uint16_t)
    __asm__("vairolent_query_in");
extern void *raw_query_set(void *result, const uint8_t *, const int16_t *, uint8_t, int32_t)
    __asm__("vairolent_query_set_in");

static void limits_into(void *result) { raw_limits(result); }
static void fresh_into(void *result) { raw_fresh(result); }
static void told_into(void *result) { raw_signal(result, host.row, host.adjustments, host.wakings, 1); }
static void wakings_into(void *wakings) { vairolent_signal_in(host.row, host.adjustments, wakings, 1); }
static void queried_into(void *result) { raw_query(result, host.row, host.adjustments, 1, 0, 0); }
static void queried_set_into(void *result) { raw_query_set(result, host.row, host.adjustments, 1, 0); }

/* A field of a struct: its first byte, and how many it has. */
struct field {
    size_t at;
    size_t bytes;
};

#define FIELD(type, name) {offsetof(struct vairolent_##type, name), sizeof((struct vairolent_##type *)0)->name}

/* The bytes of a struct that are of no field, between its fields and behind the last; a call may write them or not. */
struct padding {
    long long between;
    long long behind;
};

/* Does a call write the struct: every byte of each field, and nothing behind it? */
static void struct_is(const char *what, size_t size, void (*call)(void *), struct padding padding,
                      const struct field *fields, size_t count)
{
    static unsigned char one[4096], two[4096];
    memset(one, 0x00, sizeof one);
    memset(two, 0xff, sizeof two);
    call(one);
    call(two);
    long long last = (long long)(fields[count - 1].at + fields[count - 1].bytes);
    long long end = sizeof one, left = 0, bytes = 0;
    while (end > 0 && one[end - 1] != two[end - 1])
        end--;
    if (end > last && end <= last + padding.behind)
        end = last;
    for (size_t i = 0; i < count; i++) {
        bytes += (long long)fields[i].bytes;
        for (size_t at = fields[i].at; at < fields[i].at + fields[i].bytes; at++)
            left += one[at] != two[at];
    }
    printf("%s: %zu bytes\n", what, size);
    want("the size", (long long)size, end + padding.behind);
    want("the end of the last field", last, end);
    want("the number of bytes of a field that are not written", left, 0);
    want("the bytes of all fields", bytes, end - padding.between);
}

static void sizes(void)
{
    static const struct field limits[] = {FIELD(limits, sets), FIELD(limits, semaphores), FIELD(limits, processes),
                                          FIELD(limits, operations), FIELD(limits, value_max),
                                          FIELD(limits, mode_max), FIELD(limits, row_bytes),
                                          FIELD(limits, adjustments)};
    static const struct field hosts[] = {FIELD(host, row), FIELD(host, adjustments), FIELD(host, wakings)};
    static const struct field told[] = {FIELD(told, code),  FIELD(told, value),          FIELD(told, looks),
                                        FIELD(told, woken), FIELD(told, position.there), FIELD(told, position.at)};
    static const struct field wakings[] = {{0, sizeof host.wakings}};
    static const struct field queried[] = {FIELD(queried, code), FIELD(queried, value), FIELD(queried, last),
                                           FIELD(queried, increase), FIELD(queried, zero),
                                           FIELD(queried, increase_mask), FIELD(queried, zero_mask),
                                           FIELD(queried, looks)};
    static const struct field queried_set[] = {FIELD(queried_set, code), FIELD(queried_set, count),
                                               FIELD(queried_set, judged), FIELD(queried_set, values),
                                               FIELD(queried_set, lasts), FIELD(queried_set, increase),
                                               FIELD(queried_set, zero), FIELD(queried_set, increase_masks),
                                               FIELD(queried_set, zero_masks)};
    const struct padding none = {0, 0}, three = {.between = 3};
    host = vairolent_fresh();
    struct_is("struct vairolent_limits", sizeof(struct vairolent_limits), limits_into, none, COUNTED(limits));
    struct_is("struct vairolent_host", sizeof host, fresh_into, (struct padding){.between = 1}, COUNTED(hosts));
    struct_is("struct vairolent_told", sizeof(struct vairolent_told), told_into, (struct padding){.behind = 6},
              COUNTED(told));
    struct_is("the wakings of a host", sizeof host.wakings, wakings_into, none, COUNTED(wakings));
    struct_is("struct vairolent_queried", sizeof(struct vairolent_queried), queried_into, three, COUNTED(queried));
    struct_is("struct vairolent_queried_set", sizeof(struct vairolent_queried_set), queried_set_into, three,
              COUNTED(queried_set));
    want("the bytes of a struct sembuf", sizeof(struct sembuf), VAIROLENT_OPERATION_BYTES);
    want("the bytes of a waking", sizeof(struct vairolent_waking), 4);
}

static void limits(void)
{
    struct vairolent_limits built = vairolent_limits();
    want("VAIROLENT_SETS", VAIROLENT_SETS, (long long)built.sets);
    want("VAIROLENT_SEMAPHORES", VAIROLENT_SEMAPHORES, (long long)built.semaphores);
    want("VAIROLENT_PROCESSES", VAIROLENT_PROCESSES, (long long)built.processes);
    want("VAIROLENT_OPERATIONS", VAIROLENT_OPERATIONS, (long long)built.operations);
    want("VAIROLENT_VALUE_MAX", VAIROLENT_VALUE_MAX, (long long)built.value_max);
    want("VAIROLENT_MODE_MAX", VAIROLENT_MODE_MAX, (long long)built.mode_max);
    want("VAIROLENT_ROW_BYTES", VAIROLENT_ROW_BYTES, (long long)built.row_bytes);
    want("VAIROLENT_ADJUSTMENTS", VAIROLENT_ADJUSTMENTS, (long long)built.adjustments);
    want("the bytes of a row", sizeof host.row, (long long)built.row_bytes);
    want("the bytes of the adjustments", sizeof host.adjustments, 2 * (long long)built.adjustments);
    want("the bytes of the wakings", sizeof host.wakings, 4 * (long long)built.processes);
}

/* A fresh host with slot 0 used once before, so that its next set has the identifier 4. */
static struct vairolent_told again(uint8_t count)
{
    host = vairolent_fresh();
    vairolent_create(&host, 1, 1, 0666);
    vairolent_remove(&host, 1, 0);
    return vairolent_create(&host, 1, count, 0666);
}

static void offsets_told(void)
{
    struct vairolent_told told = again(8);
    want("a create's value", told.value, 4);
    told = operate(3, 4, 7, -2, 0);
    want("the code of a sleeper", told.code, VAIROLENT_ASLEEP);
    operate(5, 4, 7, -1, SEM_UNDO);
    told = operate(6, 4, 7, 1, 0);
    want("code", told.code, 0);
    want("value", told.value, 0);
    want("looks", (long long)told.looks, 3);
    want("woken", (long long)told.woken, 1);
    want("the waking's process", host.wakings[0].process, 5);
    want("the waking's code", host.wakings[0].code, 0);
    operate(5, 4, 0, -1, 0);
    told = vairolent_remove(&host, 1, 4);
    want("woken by a removal", (long long)told.woken, 2);
    want("the first one's code", host.wakings[0].code, EIDRM);
    want("the second one", host.wakings[1].process, 5);
    want("the second one's code", host.wakings[1].code, EIDRM);
    want("the place behind them", host.wakings[2].process, 0);
}

/* Where judging the caller's own array decided. */
static void positions_of_calls(void)
{
    static const struct sembuf stops[] = {OPERATION(0, 1, 0), OPERATION(1, 1, 0), OPERATION(0, -2, 0)};
    static const struct sembuf nowait[] = {OPERATION(1, 1, IPC_NOWAIT), OPERATION(1, 0, IPC_NOWAIT)};
    static const struct sembuf value[] = {OPERATION(1, 1, 0), OPERATION(0, 32767, 0), OPERATION(1, 1, 0),
                                          OPERATION(0, 1, 0)};
    static const struct sembuf adjustment[] = {OPERATION(1, 32767, SEM_UNDO), OPERATION(1, -32767, 0),
                                               OPERATION(1, 1, SEM_UNDO)};
    enum { LAST = VAIROLENT_OPERATIONS - 1 };
    static const struct sembuf most[VAIROLENT_OPERATIONS] = {[LAST] = OPERATION(0, -1, 0)};
    host = vairolent_fresh();
    vairolent_create(&host, 1, 2, 0666);
    told_is("asleep at the only one", operate(1, 0, 0, -1, 0), VAIROLENT_ASLEEP, 0);
    told_is("asleep at the third", vairolent_operate(&host, 2, 0, COUNTED(stops)), VAIROLENT_ASLEEP, 2);
    told_is("asleep at the last", vairolent_operate(&host, 3, 0, COUNTED(most)), VAIROLENT_ASLEEP, LAST);
    told_is("EAGAIN at the only one", operate(4, 0, 0, -1, IPC_NOWAIT), EAGAIN, 0);
    told_is("EAGAIN at the second", vairolent_operate(&host, 4, 0, COUNTED(nowait)), EAGAIN, 1);
    told_is("EAGAIN of a wait of 0", vairolent_operate_within(&host, 4, 0, COUNTED(stops), 0), EAGAIN, 2);
    told_is("asleep with a wait", vairolent_operate_within(&host, 5, 0, COUNTED(stops), 1), VAIROLENT_ASLEEP, 2);
    told_is("ERANGE of a value", vairolent_operate(&host, 4, 0, COUNTED(value)), ERANGE, 3);
    told_is("ERANGE of an adjustment", vairolent_operate(&host, 4, 0, COUNTED(adjustment)), ERANGE, 2);
}

/* Where nothing is judged, or all goes through. */
static void no_positions(void)
{
    static const struct sembuf many[VAIROLENT_OPERATIONS + 1] = {OPERATION(0, 1, 0)};
    static const int32_t zeros[2], below = -1;
    host = vairolent_fresh();
    told_is("a user", vairolent_act_as(&host, 1, 7, 7), 0, NONE);
    told_is("another one", vairolent_act_as(&host, 2, 8, 8), 0, NONE);
    told_is("a create", vairolent_create(&host, 1, 1, 0644), 0, NONE);
    told_is("a create that is refused", vairolent_create(&host, 1, 0, 0644), EINVAL, NONE);
    told_is("asleep", operate(1, 0, 0, -1, 0), VAIROLENT_ASLEEP, 0);
    told_is("no such process", operate(9, 0, 0, -1, 0), ESRCH, NONE);
    told_is("the process is asleep", operate(1, 0, 0, -1, 0), EBUSY, NONE);
    told_is("no operations", vairolent_operate(&host, 2, 0, NULL, 0), EINVAL, NONE);
    told_is("too many operations", vairolent_operate(&host, 2, 0, COUNTED(many)), E2BIG, NONE);
    told_is("no such set", operate(2, 1, 0, -1, 0), EINVAL, NONE);
    told_is("no such semaphore", operate(2, 0, 1, -1, 0), EFBIG, NONE);
    told_is("not permitted", operate(2, 0, 0, -1, 0), EACCES, NONE);
    told_is("an array that is done", operate(2, 0, 0, 0, 0), 0, NONE);
    told_is("not the owner", vairolent_remove(&host, 2, 0), EPERM, NONE);
    told_is("the user of a sleeper", vairolent_act_as(&host, 1, 7, 7), EBUSY, NONE);
    told_is("a value out of range", vairolent_set_value(&host, 3, 0, 0, -1), ERANGE, NONE);
    told_is("one of all values out of range", vairolent_set_all(&host, 3, 0, &below, 1), ERANGE, NONE);
    told_is("two values for one semaphore", vairolent_set_all(&host, 3, 0, zeros, 2), EINVAL, NONE);
    told_is("all values", vairolent_set_all(&host, 3, 0, zeros, 1), 0, NONE);
    told_is("a signal", vairolent_signal(&host, 1), 0, NONE);
    waking_is("the interrupted", 0, 1, EINTR, NONE);
    told_is("asleep with a wait", take_within(1, 0, 1), VAIROLENT_ASLEEP, 0);
    told_is("a time", vairolent_clock(&host, 1), 0, NONE);
    waking_is("the sleeper whose wait is over", 0, 1, EAGAIN, NONE);
    told_is("a time that is refused", vairolent_clock(&host, 0), EINVAL, NONE);
    told_is("an exit", vairolent_exit(&host, 1), 0, NONE);
    told_is("asleep once more", operate(1, 0, 0, -1, 0), VAIROLENT_ASLEEP, 0);
    told_is("a removal", vairolent_remove(&host, 3, 0), 0, NONE);
    waking_is("the sleeper of a removed set", 0, 1, EIDRM, NONE);
}

/* Where judging sleepers again decided, which is not where they went to sleep. */
static void positions_of_wakings(void)
{
    static const struct sembuf zero[] = {OPERATION(0, 0, IPC_NOWAIT), OPERATION(1, -1, 0)};
    static const struct sembuf add[] = {OPERATION(0, 5, 0), OPERATION(1, -1, 0)};
    static const struct sembuf then_zero[] = {OPERATION(1, -1, 0), OPERATION(0, 0, IPC_NOWAIT)};
    static const struct sembuf then_add[] = {OPERATION(1, -1, 0), OPERATION(0, 1, 0), OPERATION(0, 2, 0)};
    static const uint8_t first[] = {3, EAGAIN, 1, 0, 5, ERANGE, 1, 0};
    static const uint8_t second[] = {7, EAGAIN, 1, 1, 4, ERANGE, 1, 2, 8, 0, 0, 0};
    host = vairolent_fresh();
    vairolent_create(&host, 1, 2, 0666);
    told_is("the first sleeper", vairolent_operate(&host, 3, 0, COUNTED(zero)), VAIROLENT_ASLEEP, 1);
    told_is("the second", vairolent_operate(&host, 5, 0, COUNTED(add)), VAIROLENT_ASLEEP, 1);
    told_is("a value is set", vairolent_set_value(&host, 1, 0, 0, 32765), 0, NONE);
    waking_is("EAGAIN, now at the first", 0, 3, EAGAIN, 0);
    waking_is("ERANGE, now at the first", 1, 5, ERANGE, 0);
    wakings_are("the bytes of two wakings", COUNTED(first));
    told_is("the third", vairolent_operate(&host, 7, 0, COUNTED(then_zero)), VAIROLENT_ASLEEP, 0);
    wakings_are("the bytes of no wakings", first, 0);
    told_is("the fourth", vairolent_operate(&host, 4, 0, COUNTED(then_add)), VAIROLENT_ASLEEP, 0);
    told_is("the fifth", operate(8, 0, 1, -1, 0), VAIROLENT_ASLEEP, 0);
    told_is("one is added", operate(1, 0, 1, 1, 0), 0, NONE);
    waking_is("EAGAIN, now at the second", 0, 7, EAGAIN, 1);
    waking_is("ERANGE, now at the third", 1, 4, ERANGE, 2);
    waking_is("done", 2, 8, 0, NONE);
    wakings_are("the bytes of three wakings", COUNTED(second));
}

static void offsets_queried(void)
{
    again(2);
    operate(8, 4, 1, 5, 0);
    operate(3, 4, 1, -6, 0);
    operate(4, 4, 1, -7, 0);
    operate(7, 4, 1, 0, 0);
    struct vairolent_queried seen = vairolent_query(&host, 1, 4, 1);
    want("code", seen.code, 0);
    want("value", seen.value, 5);
    want("last", seen.last, 8);
    want("increase", seen.increase, 2);
    want("zero", seen.zero, 1);
    want("increase_mask", seen.increase_mask, 12);
    want("zero_mask", seen.zero_mask, 64);
    want("looks", seen.looks, 0);
    want("the code of a refused query", vairolent_query(&host, 1, 4, 2).code, EINVAL);
}

/* A set of three beside another one: each number is told at its place, and a sleeper of the other set not at all. */
static void offsets_queried_set(void)
{
    again(3);
    vairolent_create(&host, 1, 1, 0666);
    operate(8, 4, 2, 300, 0);
    operate(6, 4, 0, 1, 0);
    operate(3, 4, 2, -301, 0);
    operate(4, 4, 2, -302, 0);
    operate(7, 4, 0, 0, 0);
    operate(1, 1, 0, -1, 0);
    struct vairolent_queried_set seen = vairolent_query_set(&host, 2, 4);
    want("code", seen.code, 0);
    want("count", seen.count, 3);
    want("judged", (long long)seen.judged, 3);
    want("the first value", seen.values[0], 1);
    want("the last value", seen.values[2], 300);
    want("the first last process", seen.lasts[0], 6);
    want("the last process of the last", seen.lasts[2], 8);
    want("increase", seen.increase[2], 2);
    want("no increase at the first", seen.increase[0], 0);
    want("zero", seen.zero[0], 1);
    want("no zero at the last", seen.zero[2], 0);
    want("increase_masks", seen.increase_masks[2], 12);
    want("zero_masks", seen.zero_masks[0], 64);
    want("beyond the count", seen.values[3] + seen.lasts[3] + seen.increase_masks[7] + seen.zero_masks[7], 0);
    want("the arrays judged of the other set", (long long)vairolent_query_set(&host, 2, 1).judged, 1);
    want("the code of no set", vairolent_query_set(&host, 2, 0).code, EINVAL);
    want("the arrays judged of no set", (long long)vairolent_query_set(&host, 2, 0).judged, 0);
}

/* What the limits mean, at their edges. */
static void edges(void)
{
    struct sembuf none[VAIROLENT_OPERATIONS + 1] = {{.sem_num = 0}};
    host = vairolent_fresh();
    for (int32_t set = 0; set < VAIROLENT_SETS; set++)
        want("a create", vairolent_create(&host, 1, VAIROLENT_SEMAPHORES, VAIROLENT_MODE_MAX).code, 0);
    want("a set too many", vairolent_create(&host, 1, 1, 0666).code, ENOSPC);
    want("a semaphore too many", vairolent_create(&host, 1, VAIROLENT_SEMAPHORES + 1, 0666).code, EINVAL);
    want("a mode too large", vairolent_create(&host, 1, 1, VAIROLENT_MODE_MAX + 1).code, EINVAL);
    want("the last process", vairolent_exit(&host, VAIROLENT_PROCESSES).code, 0);
    want("a process too many", vairolent_exit(&host, VAIROLENT_PROCESSES + 1).code, ESRCH);
    want("the most operations", vairolent_operate(&host, 1, 0, none, VAIROLENT_OPERATIONS).code, 0);
    want("an operation too many", vairolent_operate(&host, 1, 0, none, VAIROLENT_OPERATIONS + 1).code, E2BIG);
    want("more than memory holds", vairolent_operate(&host, 1, 0, none, SIZE_MAX / 3).code, E2BIG);
    want("no operations", vairolent_operate(&host, 1, 0, NULL, 0).code, EINVAL);
    want("the largest value", vairolent_set_value(&host, 1, 0, 0, VAIROLENT_VALUE_MAX).code, 0);
    want("a value too large", vairolent_set_value(&host, 1, 0, 0, VAIROLENT_VALUE_MAX + 1).code, ERANGE);
    want("over the largest value", operate(1, 0, 0, 1, 0).code, ERANGE);
    want("the last time", vairolent_clock(&host, VAIROLENT_TIME_MAX).code, 0);
    want("a time too late", vairolent_clock(&host, VAIROLENT_TIME_MAX + 1).code, EINVAL);
}

/* An array by its bytes, with a wait or none: none, and those that are no whole operations, 199 of them too, are EINVAL
 * before too many are E2BIG. All of them are zeros, so that what is judged goes through. */
static void whole_operations(void)
{
    enum { MOST = 255 * VAIROLENT_OPERATION_BYTES };
    static const uint8_t zeros[MOST];
    host = vairolent_fresh();
    vairolent_create(&host, 1, 1, 0666);
    for (size_t bytes = 0; bytes <= MOST; bytes++) {
        size_t whole = bytes / VAIROLENT_OPERATION_BYTES;
        int32_t wanted = whole <= VAIROLENT_OPERATIONS ? 0 : E2BIG;
        if (bytes == 0 || bytes % VAIROLENT_OPERATION_BYTES != 0)
            wanted = EINVAL;
        struct vairolent_told told =
            vairolent_operate_in(host.row, host.adjustments, host.wakings, 1, 0, false, 0, zeros, bytes);
        told_is("so many bytes", told, wanted, NONE);
        told = vairolent_operate_in(host.row, host.adjustments, host.wakings, 1, 0, true, 0, zeros, bytes);
        told_is("so many bytes, with a wait", told, wanted, NONE);
    }
    want("199 bytes",
         vairolent_operate_in(host.row, host.adjustments, host.wakings, 1, 0, false, 0, zeros, 199).code, EINVAL);
}

/* Sleepers with as many operations as there can be: one is woken, and one is ended with ERANGE at its last. */
static void longest_sleepers(void)
{
    enum { LAST = VAIROLENT_OPERATIONS - 1 };
    struct sembuf takes[VAIROLENT_OPERATIONS], overflows[VAIROLENT_OPERATIONS];
    for (int i = 0; i <= LAST; i++)
        takes[i] = overflows[i] = (struct sembuf)OPERATION(0, 1, 0);
    takes[LAST] = (struct sembuf)OPERATION(1, -1, 0);
    overflows[0] = (struct sembuf)OPERATION(1, -2, 0);
    overflows[LAST] = (struct sembuf)OPERATION(0, 32767, 0);
    host = vairolent_fresh();
    vairolent_create(&host, 1, 2, 0666);
    told_is("asleep at its last", vairolent_operate(&host, 1, 0, COUNTED(takes)), VAIROLENT_ASLEEP, LAST);
    told_is("asleep at its first", vairolent_operate(&host, 2, 0, COUNTED(overflows)), VAIROLENT_ASLEEP, 0);
    told_is("both can go on", vairolent_set_value(&host, 8, 0, 1, 3), 0, NONE);
    waking_is("woken", 0, 1, 0, NONE);
    waking_is("ended at its last", 1, 2, ERANGE, LAST);
    want("what the woken one added", vairolent_query(&host, 8, 0, 0).value, LAST);
    want("what it took, and the other did not", vairolent_query(&host, 8, 0, 1).value, 2);
}

/* Which argument is which: a set of three that process 2 may alter and process 1 read, and an undo. */
static void arguments(void)
{
    host = vairolent_fresh();
    want("process 2 is user 4 of group 6", vairolent_act_as(&host, 2, 4, 6).code, 0);
    want("process 1 is user 6 of group 4", vairolent_act_as(&host, 1, 6, 4).code, 0);
    want("the set", vairolent_create(&host, 2, 3, 0624).code, 0);
    want("process 2 alters", operate(2, 0, 2, 5, SEM_UNDO).code, 0);
    want("process 1 does not", operate(1, 0, 2, 5, 0).code, EACCES);
    want("process 1 reads", operate(1, 0, 0, 0, 0).code, 0);
    want("the value", vairolent_query(&host, 1, 0, 2).value, 5);
    want("its process exits", vairolent_exit(&host, 2).code, 0);
    want("the value is given back", vairolent_query(&host, 1, 0, 2).value, 0);
    want("semaphore 1 is set to 7", vairolent_set_value(&host, 2, 0, 1, 7).code, 0);
    want("the value of semaphore 1", vairolent_query(&host, 1, 0, 1).value, 7);
    want("nobody else removes it", vairolent_remove(&host, 1, 0).code, EPERM);
    want("its owner does", vairolent_remove(&host, 2, 0).code, 0);
}

/* Arguments and values in their whole width: a set whose identifier has 17 bits, and numbers that a narrower type
 * would take for others. */
static void widths(void)
{
    enum { GENERATIONS = 16384 };
    static const int32_t all = 257;
    host = vairolent_fresh();
    for (int32_t i = 0; i < GENERATIONS; i++) {
        vairolent_create(&host, 1, 1, 0666);
        vairolent_remove(&host, 1, 4 * i);
    }
    int32_t set = 4 * GENERATIONS;
    want("a large identifier", vairolent_create(&host, 1, 1, 0666).value, set);
    want("no set 0", vairolent_query(&host, 1, 0, 0).code, EINVAL);
    want("no set 0 as a whole", vairolent_query_set(&host, 1, 0).code, EINVAL);
    want("the whole set, by it", vairolent_query_set(&host, 1, set).count, 1);
    want("an operate by it", operate(1, set, 0, 300, 0).code, 0);
    want("an operate with a wait by it", take_within(1, set, 0).code, 0);
    want("one is given back", operate(1, set, 0, 1, 0).code, 0);
    want("the value, by it", vairolent_query(&host, 1, set, 0).value, 300);
    want("no semaphore 256", vairolent_query(&host, 1, set, 256).code, EINVAL);
    want("no semaphore 256 to set", vairolent_set_value(&host, 1, set, 256, 1).code, EINVAL);
    want("no value of 65,536", vairolent_set_value(&host, 1, set, 0, 65536).code, ERANGE);
    want("a value set, by it", vairolent_set_value(&host, 1, set, 0, 256).code, 0);
    want("the value that was set", vairolent_query(&host, 1, set, 0).value, 256);
    want("all values set, by it", vairolent_set_all(&host, 1, set, &all, 1).code, 0);
    want("all values that were set", vairolent_query_set(&host, 1, set).values[0], all);
    want("no set 0 to set all values of", vairolent_set_all(&host, 1, 0, &all, 1).code, EINVAL);
    want("a removal by it", vairolent_remove(&host, 1, set).code, 0);
}

/* The codes by their names in <errno.h>: those that are not above. */
static void codes(void)
{
    host = vairolent_fresh();
    vairolent_act_as(&host, 2, 7, 7);
    vairolent_create(&host, 1, 1, 0660);
    want("not permitted", operate(2, 0, 0, 1, 0).code, EACCES);
    want("a number too high", operate(1, 0, 1, 1, 0).code, EFBIG);
    want("would sleep", operate(1, 0, 0, -1, IPC_NOWAIT).code, EAGAIN);
    want("asleep", operate(1, 0, 0, -1, 0).code, VAIROLENT_ASLEEP);
    want("an operate of a sleeper", operate(1, 0, 0, 1, 0).code, EBUSY);
    want("no such set", vairolent_remove(&host, 2, 1).code, EINVAL);
    want("a signal", vairolent_signal(&host, 1).code, 0);
    want("the code of the interrupted", host.wakings[0].code, EINTR);
}

int main(void)
{
    sizes();
    limits();
    offsets_told();
    positions_of_calls();
    no_positions();
    positions_of_wakings();
    offsets_queried();
    offsets_queried_set();
    edges();
    whole_operations();
    longest_sleepers();
    arguments();
    widths();
    codes();
    return finished();
}
