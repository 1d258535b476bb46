/* Waits that end by the clock: when, in which order and with which code; which times and waits are refused; and that a
 * sleeper with a wait is otherwise as any other. */
#include <errno.h>

#include "wanted.h"

/* A fresh host with sets of two semaphores, one in each slot, and a time told. */
static void begin(uint64_t time)
{
    host = vairolent_fresh();
    for (int32_t set = 0; set < VAIROLENT_SETS; set++)
        vairolent_create(&host, 1, 2, 0666);
    want("the first time", vairolent_clock(&host, time).code, 0);
}

/* Does this time end exactly these processes, each a digit, in this order? */
static void ends(const char *what, uint64_t time, const char *processes)
{
    uint8_t wakings[sizeof host.wakings] = {0};
    size_t count = strlen(processes);
    for (size_t i = 0; i < count; i++) {
        wakings[4 * i] = (uint8_t)(processes[i] - '0');
        wakings[4 * i + 1] = EAGAIN;
    }
    struct vairolent_told told = vairolent_clock(&host, time);
    told_is(what, told, 0, NONE);
    want(what, (long long)(told.value + told.looks), 0);
    want(what, (long long)told.woken, (long long)count);
    wakings_are(what, COUNTED(wakings));
}

static void sleeps(uint8_t process, int32_t set, uint32_t wait)
{
    told_is("asleep with a wait", take_within(process, set, wait), VAIROLENT_ASLEEP, 0);
}

/* At start plus wait, and not before; an equal time is told again. The process is awake then. */
static void when(void)
{
    begin(10);
    sleeps(3, 1, 5);
    ends("the same time", 10, "");
    ends("a millisecond too early", 14, "");
    ends("the end of the wait", 15, "3");
    ends("once more", 15, "");
    ends("much later", 1000, "");
    sleeps(3, 1, 1);
    ends("far past the end", 5000, "3");
    begin(0);
    sleeps(1, 0, 1);
    ends("the first millisecond", 1, "1");
}

/* Oldest first over all sets: not by set, process or end of wait. Who is not due, or has no wait, sleeps on. */
static void order(void)
{
    begin(7);
    sleeps(6, 3, 30);
    sleeps(2, 0, 90);
    told_is("without a wait", operate(4, 0, 0, -1, 0), VAIROLENT_ASLEEP, 0);
    sleeps(8, 1, 10);
    sleeps(1, 3, 20);
    ends("nobody yet", 16, "");
    sleeps(5, 0, 1);
    ends("four of six", 37, "6815");
    want("who sleeps on", vairolent_query(&host, 7, 0, 0).increase_mask, 2 + 8);
    want("who sleeps elsewhere", vairolent_query(&host, 7, 3, 0).increase, 0);
    ends("the last with a wait", 97, "2");
    ends("the last time", VAIROLENT_TIME_MAX, "");
    told_is("who has none", operate(4, 0, 0, -1, 0), EBUSY, NONE);
}

static void all_eight(void)
{
    begin(0);
    for (uint8_t process = 8; process > 0; process--)
        sleeps(process, process % VAIROLENT_SETS, process);
    ends("all of them", 8, "87654321");
}

/* Times below the last told and above the greatest: they change nothing, and are not told. */
static void times_refused(void)
{
    static const uint64_t wrong[] = {0, 99, VAIROLENT_TIME_MAX + 1, VAIROLENT_TIME_MAX + 101, UINT64_MAX};
    begin(100);
    sleeps(2, 0, 50);
    struct vairolent_host before = host;
    for (size_t i = 0; i < sizeof wrong / sizeof wrong[0]; i++)
        refused("a wrong time", before, vairolent_clock(&host, wrong[i]), EINVAL, NONE);
    ends("the last told", 100, "");
    ends("the wait still counts from its start", 150, "2");
    ends("the last time", VAIROLENT_TIME_MAX, "");
    ends("the last time again", VAIROLENT_TIME_MAX, "");
    before = host;
    refused("a millisecond below it", before, vairolent_clock(&host, VAIROLENT_TIME_MAX - 1), EINVAL, NONE);
}

/* A wait in all its bits, from a start in all of its own: the sum is exact, beyond the last time too. */
static void sums(void)
{
    static const uint64_t starts[] = {0, 5, UINT32_MAX, UINT64_C(1) << 32, UINT64_C(1) << 62};
    static const uint32_t waits[] = {1, 255, 256, 65536, 65537, INT32_MAX, UINT32_MAX};
    for (size_t i = 0; i < sizeof starts / sizeof starts[0]; i++) {
        for (size_t j = 0; j < sizeof waits / sizeof waits[0]; j++) {
            begin(starts[i]);
            sleeps(7, 2, waits[j]);
            ends("a millisecond too early", starts[i] + waits[j] - 1, "");
            ends("the sum", starts[i] + waits[j], "7");
        }
    }
    begin(VAIROLENT_TIME_MAX - 10);
    sleeps(1, 0, 11);
    sleeps(2, 0, 10);
    sleeps(3, 0, UINT32_MAX);
    ends("the last time", VAIROLENT_TIME_MAX, "2");
    sleeps(2, 0, 1);
    ends("no wait can end any more", VAIROLENT_TIME_MAX, "");
}

/* A wait of 0 where the process would sleep: EAGAIN at the operation that stops, and nothing is changed. Else the
 * outcome is that of any wait. */
static void no_time_at_all(void)
{
    static const struct sembuf stops[] = {OPERATION(1, 1, 0), OPERATION(0, 0, 0), OPERATION(0, -1, 0)};
    static const struct sembuf done[] = {OPERATION(0, 2, 0), OPERATION(0, -1, SEM_UNDO)};
    static const struct sembuf over[] = {OPERATION(0, 32767, 0), OPERATION(0, 1, 0), OPERATION(1, -1, 0)};
    begin(20);
    told_is("another sleeper", operate(6, 0, 1, -1, 0), VAIROLENT_ASLEEP, 0);
    struct vairolent_host before = host;
    refused("would sleep", before, take_within(1, 0, 0), EAGAIN, 0);
    refused("would sleep at the third", before, vairolent_operate_within(&host, 1, 0, COUNTED(stops), 0), EAGAIN, 2);
    refused("out of range", before, vairolent_operate_within(&host, 1, 0, COUNTED(over), 0), ERANGE, 1);
    told_is("done", vairolent_operate_within(&host, 1, 0, COUNTED(done), 0), 0, NONE);
    want("the value", vairolent_query(&host, 8, 0, 0).value, 1);
    told_is("the process is awake", operate(1, 0, 0, -1, 0), 0, NONE);
}

/* Every check comes before a wait of 0, and before any other wait. */
static void checks(void)
{
    static const struct sembuf far = OPERATION(2, -1, 0), many[VAIROLENT_OPERATIONS + 1] = {OPERATION(0, -1, 0)};
    for (uint32_t wait = 0; wait < 2; wait++) {
        host = vairolent_fresh();
        vairolent_act_as(&host, 1, 8, 8);
        vairolent_act_as(&host, 2, 7, 7);
        vairolent_create(&host, 2, 2, 0604);
        sleeps(2, 0, 9);
        struct vairolent_host before = host;
        refused("no such process", before, take_within(9, 0, wait), ESRCH, NONE);
        refused("asleep already", before, take_within(2, 0, wait), EBUSY, NONE);
        refused("no operations", before, vairolent_operate_within(&host, 1, 0, NULL, 0, wait), EINVAL, NONE);
        refused("too many", before, vairolent_operate_within(&host, 1, 0, COUNTED(many), wait), E2BIG, NONE);
        refused("no such set", before, take_within(1, 1, wait), EINVAL, NONE);
        refused("no such semaphore", before, vairolent_operate_within(&host, 1, 0, &far, 1, wait), EFBIG, NONE);
        refused("not permitted", before, take_within(1, 0, wait), EACCES, NONE);
    }
}

/* Who is past its wait, with no time told, sleeps on and can be woken with 0; a look does not begin a wait anew. */
static void woken_in_time(void)
{
    static const struct sembuf nowait[] = {OPERATION(0, -1, 0), OPERATION(1, 0, IPC_NOWAIT)};
    begin(50);
    sleeps(3, 0, 5);
    told_is("one is added", operate(8, 0, 0, 1, 0), 0, NONE);
    waking_is("it is done", 0, 3, 0, NONE);
    want("the last process", vairolent_query(&host, 8, 0, 0).last, 3);
    ends("its wait is gone", 55, "");
    told_is("asleep at 55", vairolent_operate_within(&host, 4, 0, COUNTED(nowait), 10), VAIROLENT_ASLEEP, 0);
    ends("nobody yet", 60, "");
    want("a look", (long long)vairolent_set_value(&host, 8, 0, 0, 0).looks, 1);
    ends("the look began no wait", 65, "4");
    told_is("asleep at 65", vairolent_operate_within(&host, 4, 0, COUNTED(nowait), 10), VAIROLENT_ASLEEP, 0);
    told_is("a value", vairolent_set_value(&host, 8, 0, 1, 1), 0, NONE);
    told_is("another", vairolent_set_value(&host, 8, 0, 0, 1), 0, NONE);
    waking_is("EAGAIN by a look has a position", 0, 4, EAGAIN, 1);
}

/* Signal, removal and exit end a wait with the call: neither it nor the next call of the process ends by it. */
static void ended_otherwise(void)
{
    begin(0);
    sleeps(1, 0, 5);
    sleeps(2, 1, 5);
    sleeps(3, 2, 5);
    vairolent_signal(&host, 1);
    waking_is("a signal", 0, 1, EINTR, NONE);
    vairolent_remove(&host, 8, 1);
    waking_is("a removal", 0, 2, EIDRM, NONE);
    want("an exit", (long long)vairolent_exit(&host, 3).woken, 0);
    for (uint8_t process = 1; process <= 3; process++)
        told_is("without a wait", operate(process, 0, 0, -1, 0), VAIROLENT_ASLEEP, 0);
    ends("no wait is left", 1000, "");
}

/* An expiry changes no value, no adjustment and no last process, and nobody is judged for it. */
static void nothing_else(void)
{
    static const struct sembuf both[] = {OPERATION(0, 3, SEM_UNDO), OPERATION(1, -1, 0)};
    begin(0);
    operate(8, 0, 0, 2, SEM_UNDO);
    told_is("asleep", vairolent_operate_within(&host, 5, 0, COUNTED(both), 4), VAIROLENT_ASLEEP, 1);
    told_is("behind it", operate(6, 0, 0, 0, 0), VAIROLENT_ASLEEP, 0);
    int16_t adjustments[VAIROLENT_ADJUSTMENTS];
    memcpy(adjustments, host.adjustments, sizeof adjustments);
    ends("one of two", 4, "5");
    want("the adjustments", memcmp(adjustments, host.adjustments, sizeof adjustments), 0);
    struct vairolent_queried_set seen = vairolent_query_set(&host, 8, 0);
    want("the values", seen.values[0] * 10 + seen.values[1], 20);
    want("the last processes", seen.lasts[0] * 10 + seen.lasts[1], 80);
    want("who still waits", seen.zero_masks[0], 32);
    want("nobody else does", (long long)seen.judged, 1);
}

int main(void)
{
    when();
    order();
    all_eight();
    times_refused();
    sums();
    no_time_at_all();
    checks();
    woken_in_time();
    ended_otherwise();
    nothing_else();
    return finished();
}
