/* Owners and modes: by which bits a process goes and what they permit, who removes a set, in which order calls are
 * refused, and that a process calls by the user and group that it has then. */
#include <errno.h>

#include "wanted.h"

/* The set is made by process OWNER, as user 7 of group 9. */
enum { OWNER = 1, SLEEPER, CALLER, USER = 7, GROUP = 9 };

/* Bits of three. */
enum { READ = 4, ALTER = 2 };

/* A process by its numbers, and where its three bits begin in a mode. */
struct caller {
    const char *what;
    uint32_t user;
    uint32_t group;
    int first;
};

enum { PASSES = -1, OTHERS = 0, GROUPS = 3, OWNERS = 6 };

static const struct caller callers[] = {
    {"the owner", USER, GROUP, OWNERS},
    {"the owner in another group", USER, 1, OWNERS},
    {"the owner in group 0", USER, 0, OWNERS},
    {"one of the group", 8, GROUP, GROUPS},
    {"one of the group, by its number too", GROUP, GROUP, GROUPS},
    {"another one", 8, 1, OTHERS},
    {"another one in group 0", 8, 0, OTHERS},
    {"another one, of a group by the owner's number", 8, USER, OTHERS},
    {"user and group exchanged", GROUP, USER, OTHERS},
    {"user 0", 0, 1, PASSES},
    {"user 0 in the group", 0, GROUP, PASSES},
    {"user 0 in group 0", 0, 0, PASSES},
};

enum { CALLERS = sizeof callers / sizeof callers[0] };

/* A fresh host with the set, of two semaphores. */
static void begin(uint16_t mode)
{
    host = vairolent_fresh();
    told_is("the owner's numbers", vairolent_act_as(&host, OWNER, USER, GROUP), 0, NONE);
    told_is("the set", vairolent_create(&host, OWNER, 2, mode), 0, NONE);
}

/* The code of a query; refused, it shows nothing. */
static void query_is(const char *what, struct vairolent_queried seen, int32_t code)
{
    want(what, seen.code, code);
    if (code != 0)
        want(what, seen.value + seen.last + seen.increase + seen.zero + seen.increase_mask + seen.zero_mask, 0);
}

/* .. and of a read all. */
static void reading_is(const char *what, struct vairolent_queried_set seen, int32_t code)
{
    want(what, seen.code, code);
    long long shown = seen.count + seen.judged;
    for (size_t i = 0; i < VAIROLENT_SEMAPHORES; i++)
        shown += seen.values[i] + seen.lasts[i] + seen.increase[i] + seen.zero[i] + seen.increase_masks[i] +
                 seen.zero_masks[i];
    if (code != 0)
        want(what, shown, 0);
}

/* Was a call done, or refused as not permitted? The host is as before then. */
static void permitted(const char *what, struct vairolent_host before, struct vairolent_told told, int permits)
{
    if (permits)
        told_is(what, told, 0, NONE);
    else
        refused(what, before, told, EACCES, NONE);
    host = before;
}

/* Is a process permitted exactly what these bits permit? */
static void may(const char *what, uint8_t process, int bits)
{
    static const struct sembuf both[] = {OPERATION(0, 0, 0), OPERATION(1, 1, 0)};
    static const int32_t values[] = {1, 2};
    struct vairolent_host before = host;
    int reads = (bits & READ) != 0, alters = (bits & ALTER) != 0;
    query_is(what, vairolent_query(&host, process, 0, 1), reads ? 0 : EACCES);
    reading_is(what, vairolent_query_set(&host, process, 0), reads ? 0 : EACCES);
    permitted(what, before, operate(process, 0, 0, 0, 0), reads);
    permitted(what, before, operate(process, 0, 0, 1, 0), alters);
    permitted(what, before, vairolent_operate(&host, process, 0, COUNTED(both)), reads && alters);
    permitted(what, before, vairolent_operate_within(&host, process, 0, both, 2, 1), reads && alters);
    permitted(what, before, vairolent_set_value(&host, process, 0, 1, 3), alters);
    permitted(what, before, vairolent_set_all(&host, process, 0, COUNTED(values)), alters);
}

/* Every mode for every caller. */
static void truth_table(void)
{
    for (uint16_t mode = 0; mode <= VAIROLENT_MODE_MAX; mode++) {
        begin(mode);
        for (size_t i = 0; i < CALLERS; i++) {
            const struct caller *caller = &callers[i];
            vairolent_act_as(&host, CALLER, caller->user, caller->group);
            may(caller->what, CALLER, caller->first == PASSES ? READ | ALTER : mode >> caller->first);
        }
    }
}

/* Whose numbers differ from the set's in one bit alone is not its owner, not in its group, and not user 0. */
static void every_bit(void)
{
    const uint32_t user = UINT32_C(0x8142c3f0), group = UINT32_C(0x01fe7a96);
    for (int i = 0; i < 32; i++) {
        uint32_t bit = UINT32_C(1) << i;
        host = vairolent_fresh();
        vairolent_act_as(&host, OWNER, user, group);
        vairolent_create(&host, OWNER, 2, 0420);
        may("who made it", OWNER, READ);
        vairolent_act_as(&host, CALLER, user, group ^ bit);
        may("the same user", CALLER, READ);
        vairolent_act_as(&host, CALLER, user ^ bit, group);
        may("the same group", CALLER, ALTER);
        vairolent_act_as(&host, CALLER, user ^ bit, group ^ bit);
        may("neither", CALLER, 0);
        vairolent_act_as(&host, CALLER, bit, bit);
        may("a user of one bit", CALLER, 0);
    }
}

/* Group 0 is a group as any other, and owner 0 an owner as any other. */
static void zeros(void)
{
    host = vairolent_fresh();
    vairolent_act_as(&host, CALLER, USER, 0);
    vairolent_create(&host, OWNER, 2, 0042);
    may("user 0", OWNER, READ | ALTER);
    may("group 0", CALLER, READ);
    vairolent_act_as(&host, CALLER, USER, 1);
    may("another group", CALLER, ALTER);
}

/* A mode over the nine bits is refused, whatever they are. */
static void modes_refused(void)
{
    begin(0666);
    struct vairolent_host before = host;
    for (uint32_t mode = VAIROLENT_MODE_MAX + 1; mode <= UINT16_MAX; mode++)
        refused("a mode", before, vairolent_create(&host, CALLER, 1, (uint16_t)mode), EINVAL, NONE);
}

/* The owner removes a set, and user 0; the mode is not asked. */
static void removals(void)
{
    static const uint16_t modes[] = {0, 0077, VAIROLENT_MODE_MAX};
    for (size_t i = 0; i < CALLERS * 3; i++) {
        const struct caller *caller = &callers[i / 3];
        begin(modes[i % 3]);
        vairolent_act_as(&host, CALLER, caller->user, caller->group);
        struct vairolent_host before = host;
        if (caller->first == OWNERS || caller->first == PASSES)
            told_is(caller->what, vairolent_remove(&host, CALLER, 0), 0, NONE);
        else
            refused(caller->what, before, vairolent_remove(&host, CALLER, 0), EPERM, NONE);
    }
}

/* A removed set leaves nothing of its owner, group and mode. */
static void nothing_left(void)
{
    begin(0640);
    told_is("its removal", vairolent_remove(&host, OWNER, 0), 0, NONE);
    struct vairolent_host left = host;
    host = vairolent_fresh();
    vairolent_create(&host, OWNER, 1, 0);
    vairolent_remove(&host, OWNER, 0);
    vairolent_act_as(&host, OWNER, USER, GROUP);
    want("the row", memcmp(host.row, left.row, sizeof host.row), 0);
    want("the adjustments", memcmp(host.adjustments, left.adjustments, sizeof host.adjustments), 0);
}

/* Every call that names its caller is refused with this code, with these arguments for all of them. */
static void no_call(uint8_t process, int32_t set, uint8_t number, int32_t value, int32_t code)
{
    const struct sembuf one = {.sem_num = number, .sem_op = 1, .sem_flg = 0};
    const int32_t values[] = {value, value};
    struct vairolent_host before = host;
    refused("create", before, vairolent_create(&host, process, number, 0666), code, NONE);
    refused("operate", before, vairolent_operate(&host, process, set, &one, 1), code, NONE);
    refused("operate within", before, vairolent_operate_within(&host, process, set, &one, 1, 0), code, NONE);
    refused("set value", before, vairolent_set_value(&host, process, set, number, value), code, NONE);
    refused("set all", before, vairolent_set_all(&host, process, set, COUNTED(values)), code, NONE);
    refused("remove", before, vairolent_remove(&host, process, set), code, NONE);
    refused("act as", before, vairolent_act_as(&host, process, USER, GROUP), code, NONE);
    query_is("query", vairolent_query(&host, process, set, number), code);
    reading_is("read all", vairolent_query_set(&host, process, set), code);
}

/* No such process, and a process asleep, come before all else, with good arguments and with bad ones. */
static void callers_first(void)
{
    static const uint8_t wrong[] = {0, VAIROLENT_PROCESSES + 1, 129, UINT8_MAX};
    begin(0);
    vairolent_act_as(&host, SLEEPER, USER, 0);
    vairolent_create(&host, SLEEPER, 1, 0200);
    told_is("asleep", operate(SLEEPER, 1, 0, -1, 0), VAIROLENT_ASLEEP, 0);
    for (int32_t set = 0; set < 5; set += 4) {
        for (size_t i = 0; i < sizeof wrong; i++) {
            no_call(wrong[i], set, 1, 1, ESRCH);
            no_call(wrong[i], set, 9, -1, ESRCH);
        }
        no_call(SLEEPER, set, 1, 1, EBUSY);
        no_call(SLEEPER, set, 9, -1, EBUSY);
    }
}

/* What comes then; each call has every fault that is asked for later, too. */
static void orders(void)
{
    static const int32_t below[] = {-1, -1};
    begin(0600);
    vairolent_act_as(&host, CALLER, 8, 8);
    struct vairolent_host before = host;
    refused("a value of no set", before, vairolent_set_value(&host, CALLER, 4, 2, -1), EINVAL, NONE);
    refused("a value", before, vairolent_set_value(&host, CALLER, 0, 2, -1), EACCES, NONE);
    refused("of no semaphore", before, vairolent_set_value(&host, OWNER, 0, 2, -1), EINVAL, NONE);
    refused("out of range", before, vairolent_set_value(&host, OWNER, 0, 1, -1), ERANGE, NONE);
    refused("all values of no set", before, vairolent_set_all(&host, CALLER, 4, below, 1), EINVAL, NONE);
    refused("all values", before, vairolent_set_all(&host, CALLER, 0, below, 1), EACCES, NONE);
    refused("too few", before, vairolent_set_all(&host, OWNER, 0, below, 1), EINVAL, NONE);
    refused("out of range", before, vairolent_set_all(&host, OWNER, 0, below, 2), ERANGE, NONE);
    query_is("no set", vairolent_query(&host, CALLER, 4, 2), EINVAL);
    query_is("a query", vairolent_query(&host, CALLER, 0, 2), EACCES);
    query_is("of no semaphore", vairolent_query(&host, OWNER, 0, 2), EINVAL);
    reading_is("no set", vairolent_query_set(&host, CALLER, 4), EINVAL);
    refused("no set to remove", before, vairolent_remove(&host, CALLER, 4), EINVAL, NONE);
    refused("an operate of no semaphore", before, operate(CALLER, 0, 2, -1, 0), EFBIG, NONE);
    refused("an operate that would sleep", before, operate(CALLER, 0, 1, -1, 0), EACCES, NONE);
    refused("and may not", before, operate(CALLER, 0, 1, -1, IPC_NOWAIT), EACCES, NONE);
    refused("for no time", before, take_within(CALLER, 0, 0), EACCES, NONE);
}

/* Of a create, with a free slot and without. */
static void order_of_create(void)
{
    begin(0);
    for (int32_t sets = 1; sets <= VAIROLENT_SETS; sets++) {
        struct vairolent_host before = host;
        refused("no semaphores", before, vairolent_create(&host, CALLER, 0, 0), EINVAL, NONE);
        refused("nine", before, vairolent_create(&host, CALLER, VAIROLENT_SEMAPHORES + 1, 0), EINVAL, NONE);
        refused("a mode", before, vairolent_create(&host, CALLER, 1, VAIROLENT_MODE_MAX + 1), EINVAL, NONE);
        told_is("a good one", vairolent_create(&host, CALLER, 1, 0), sets < VAIROLENT_SETS ? 0 : ENOSPC, NONE);
    }
}

/* Every process has numbers of its own, 0 at first, and calls by its present ones; those of a set stay. */
static void present_numbers(void)
{
    begin(0640);
    for (uint8_t process = OWNER + 1; process <= VAIROLENT_PROCESSES; process++)
        may("at first", process, READ | ALTER);
    for (uint8_t process = OWNER; process <= VAIROLENT_PROCESSES; process++)
        vairolent_act_as(&host, process, process + 8, process + 8);
    for (uint8_t process = OWNER; process <= VAIROLENT_PROCESSES; process++)
        may("numbers of its own", process, process + 8 == GROUP ? READ : 0);
    vairolent_act_as(&host, OWNER, 8, 8);
    may("who made it", OWNER, 0);
    want("and cannot remove it", vairolent_remove(&host, OWNER, 0).code, EPERM);
    vairolent_act_as(&host, CALLER, USER, 8);
    may("another process of its owner", CALLER, READ | ALTER);
    told_is("an exit", vairolent_exit(&host, CALLER), 0, NONE);
    may("the numbers stay", CALLER, READ | ALTER);
    told_is("an exit", vairolent_exit(&host, OWNER), 0, NONE);
    may("these too", OWNER, 0);
    want("the next set", vairolent_create(&host, OWNER, 1, 0600).value, 1);
    want("has its owner then", vairolent_remove(&host, CALLER, 1).code, EPERM);
}

/* A sleeper keeps its numbers, and is woken by whoever may alter; what it may do is not asked again. */
static void sleepers(void)
{
    begin(0620);
    vairolent_act_as(&host, SLEEPER, 8, GROUP);
    vairolent_act_as(&host, CALLER, 8, 8);
    told_is("asleep", operate(SLEEPER, 0, 1, -1, 0), VAIROLENT_ASLEEP, 0);
    struct vairolent_host before = host;
    refused("other numbers", before, vairolent_act_as(&host, SLEEPER, 0, 0), EBUSY, NONE);
    refused("the same", before, vairolent_act_as(&host, SLEEPER, 8, GROUP), EBUSY, NONE);
    refused("one is added by another", before, operate(CALLER, 0, 1, 1, 0), EACCES, NONE);
    told_is("the owner's numbers", vairolent_act_as(&host, OWNER, 8, GROUP), 0, NONE);
    told_is("one is added", operate(OWNER, 0, 1, 1, 0), 0, NONE);
    waking_is("woken", 0, SLEEPER, 0, NONE);
    may("the sleeper's numbers", SLEEPER, ALTER);
    told_is("asleep again", operate(SLEEPER, 0, 1, -1, 0), VAIROLENT_ASLEEP, 0);
    told_is("an exit", vairolent_exit(&host, SLEEPER), 0, NONE);
    may("and after its exit", SLEEPER, ALTER);
    told_is("awake", vairolent_act_as(&host, SLEEPER, USER, 1), 0, NONE);
    may("other numbers", SLEEPER, READ | ALTER);
}

/* While all are asleep nobody can call, and the clock, which nobody calls, ends them. */
static void all_asleep(void)
{
    begin(0666);
    for (uint8_t process = 1; process <= VAIROLENT_PROCESSES; process++)
        told_is("asleep", take_within(process, 0, 5), VAIROLENT_ASLEEP, 0);
    for (uint8_t process = 1; process <= VAIROLENT_PROCESSES; process++)
        no_call(process, 0, 1, 1, EBUSY);
    want("woken", (long long)vairolent_clock(&host, 5).woken, VAIROLENT_PROCESSES);
    may("awake", OWNER, READ | ALTER);
}

int main(void)
{
    truth_table();
    every_bit();
    zeros();
    modes_refused();
    removals();
    nothing_left();
    callers_first();
    orders();
    order_of_create();
    present_numbers();
    sleepers();
    all_asleep();
    return finished();
}
