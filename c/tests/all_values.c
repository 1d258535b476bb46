/* Sets and reads all values of a set at once: how many are taken, which are refused, whom a setting wakes, and what it
 * forgets and keeps. */
#include <errno.h>

#include "wanted.h"

enum { MOST = VAIROLENT_SEMAPHORES, VALUE = sizeof(int32_t) };

/* A fresh host with a set of so many semaphores, where process 1 has an undo adjustment, 2 waits for an increase and 3
 * for zero. */
static void busy(uint8_t count)
{
    host = vairolent_fresh();
    vairolent_create(&host, 1, count, 0666);
    operate(1, 0, 0, 5, SEM_UNDO);
    operate(2, 0, 0, -6, 0);
    operate(3, 0, 0, 0, 0);
}

static struct vairolent_told set_bytes(int32_t set, const uint8_t *values, size_t bytes)
{
    return vairolent_set_all_in(host.row, host.adjustments, host.wakings, 1, set, values, bytes);
}

/* Every number of bytes: only those of as many values as the set has are taken; any other number is EINVAL, whole or
 * not, before a value is ERANGE. */
static void numbers_of_bytes(void)
{
    enum { BYTES = 10 * VALUE };
    static const uint8_t zeros[BYTES];
    uint8_t ones[BYTES];
    memset(ones, 0xff, sizeof ones);
    for (uint8_t count = 1; count <= MOST; count++) {
        for (size_t bytes = 0; bytes <= BYTES; bytes++) {
            int fits = bytes == (size_t)VALUE * count;
            busy(count);
            struct vairolent_host before = host;
            refused("so many bytes of -1", before, set_bytes(0, ones, bytes), fits ? ERANGE : EINVAL, NONE);
            refused("so many bytes of -1, at no set", before, set_bytes(4, ones, bytes), EINVAL, NONE);
            if (fits)
                told_is("as many values", set_bytes(0, zeros, bytes), 0, NONE);
            else
                refused("so many bytes", before, set_bytes(0, zeros, bytes), EINVAL, NONE);
        }
    }
}

/* Every number of values, more than memory holds too; none may be a null pointer. */
static void numbers_of_values(void)
{
    static const int32_t zeros[10 * MOST];
    for (uint8_t count = 1; count <= MOST; count++) {
        busy(count);
        struct vairolent_host before = host;
        refused("no values", before, vairolent_set_all(&host, 1, 0, NULL, 0), EINVAL, NONE);
        refused("more than memory holds", before, vairolent_set_all(&host, 1, 0, zeros, SIZE_MAX / 2 + 1 + count),
                EINVAL, NONE);
        for (size_t values = 1; values <= 10 * MOST; values++) {
            if (values != count)
                refused("so many values", before, vairolent_set_all(&host, 1, 0, zeros, values), EINVAL, NONE);
        }
        told_is("as many values", vairolent_set_all(&host, 1, 0, zeros, count), 0, NONE);
    }
}

/* A value out of range at each place, the others in range. */
static void ranges(void)
{
    static const int32_t wrong[] = {-1, VAIROLENT_VALUE_MAX + 1, 65536, INT32_MAX, INT32_MIN};
    for (uint8_t count = 1; count <= MOST; count++) {
        busy(count);
        struct vairolent_host before = host;
        for (size_t place = 0; place < count; place++) {
            for (size_t i = 0; i < sizeof wrong / sizeof wrong[0]; i++) {
                int32_t values[MOST] = {0, VAIROLENT_VALUE_MAX, 6, 7};
                values[place] = wrong[i];
                refused("out of range", before, vairolent_set_all(&host, 1, 0, values, count), ERANGE, NONE);
                refused("out of range, at no set", before, vairolent_set_all(&host, 1, -1, values, count), EINVAL,
                        NONE);
            }
        }
    }
}

static void values_are(const char *what, int32_t set, const int32_t *values, size_t count)
{
    struct vairolent_queried_set seen = vairolent_query_set(&host, 1, set);
    want(what, seen.code, 0);
    want(what, seen.count, (long long)count);
    for (size_t i = 0; i < count; i++)
        want(what, seen.values[i], values[i]);
}

/* Each value at its place, from every address. */
static void places(void)
{
    static const int32_t values[MOST] = {0, 1, 255, 256, 257, 32512, 32766, VAIROLENT_VALUE_MAX};
    host = vairolent_fresh();
    vairolent_create(&host, 1, MOST, 0666);
    told_is("the values", vairolent_set_all(&host, 1, 0, values, MOST), 0, NONE);
    values_are("each value", 0, values, MOST);
    for (size_t at = 0; at < 2 * VALUE; at++) {
        uint8_t bytes[sizeof values + 2 * VALUE] = {0};
        memcpy(bytes + at, values, sizeof values);
        host = vairolent_fresh();
        vairolent_create(&host, 1, MOST, 0666);
        told_is("the values from elsewhere", set_bytes(0, bytes + at, sizeof values), 0, NONE);
        values_are("each value from elsewhere", 0, values, MOST);
    }
}

/* Sleepers are judged on all values: with the first value alone, process 4 would be ended with EAGAIN. Whoever sleeps
 * at another set is not judged. */
static void wakings(void)
{
    static const struct sembuf both[] = {OPERATION(0, -1, 0), OPERATION(1, 0, IPC_NOWAIT)};
    static const int32_t first[] = {0, 5}, second[] = {2, 0};
    host = vairolent_fresh();
    vairolent_create(&host, 1, 2, 0666);
    vairolent_create(&host, 1, 1, 0666);
    told_is("nobody sleeps", vairolent_set_all(&host, 1, 0, COUNTED(first)), 0, NONE);
    told_is("three", operate(7, 0, 0, -3, 0), VAIROLENT_ASLEEP, 0);
    told_is("one, and zero", vairolent_operate(&host, 4, 0, COUNTED(both)), VAIROLENT_ASLEEP, 0);
    told_is("elsewhere", operate(8, 1, 0, -1, 0), VAIROLENT_ASLEEP, 0);
    told_is("zero", operate(6, 0, 1, 0, 0), VAIROLENT_ASLEEP, 0);
    struct vairolent_told told = vairolent_set_all(&host, 1, 0, COUNTED(second));
    told_is("two can go on", told, 0, NONE);
    want("looks, the oldest judged again", (long long)told.looks, 4);
    want("woken", (long long)told.woken, 2);
    waking_is("the first", 0, 4, 0, NONE);
    waking_is("the second", 1, 6, 0, NONE);
    want("what the first took", vairolent_query(&host, 1, 0, 0).value, 1);
    want("who still waits there", vairolent_query_set(&host, 1, 0).increase_masks[0], 64);
    want("who still waits elsewhere", vairolent_query_set(&host, 1, 1).increase_masks[0], 128);
}

/* Adjustments of every process at every semaphore of the set are forgotten, those of another set and the last processes
 * are not. */
static void forgotten_and_kept(void)
{
    static const int32_t values[MOST] = {8, 7, 6, 5, 4, 3, 2, 1}, none[MOST];
    host = vairolent_fresh();
    for (int32_t set = 0; set < 2; set++) {
        vairolent_create(&host, 1, MOST, 0666);
        for (uint8_t process = 1; process <= VAIROLENT_PROCESSES; process++) {
            for (unsigned short number = 0; number < MOST; number++)
                operate(process, set, number, process, SEM_UNDO);
        }
    }
    told_is("the first set", vairolent_set_all(&host, 1, 0, COUNTED(values)), 0, NONE);
    for (size_t number = 0; number < MOST; number++)
        want("the last process", vairolent_query_set(&host, 1, 0).lasts[number], VAIROLENT_PROCESSES);
    for (uint8_t process = 1; process <= VAIROLENT_PROCESSES; process++)
        want("an exit", vairolent_exit(&host, process).code, 0);
    values_are("nothing is given back", 0, COUNTED(values));
    values_are("all is given back", 1, COUNTED(none));
}

/* The values that were read, set again: adjustments are forgotten before the sleeper is judged, and its own was what
 * kept its third operation in range. */
static void the_same_again(void)
{
    static const struct sembuf array[] = {OPERATION(0, 32767, SEM_UNDO), OPERATION(0, -32767, 0),
                                          OPERATION(0, 1, SEM_UNDO), OPERATION(1, -1, 0)};
    host = vairolent_fresh();
    vairolent_create(&host, 1, 2, 0666);
    operate(2, 0, 0, 1, 0);
    told_is("an adjustment of 1", operate(5, 0, 0, -1, SEM_UNDO), 0, NONE);
    told_is("asleep at the last", vairolent_operate(&host, 5, 0, COUNTED(array)), VAIROLENT_ASLEEP, 3);
    struct vairolent_queried_set seen = vairolent_query_set(&host, 1, 0);
    int32_t values[] = {seen.values[0], seen.values[1]};
    want("who waits", seen.increase_masks[1], 16);
    told_is("the same", vairolent_set_all(&host, 1, 0, COUNTED(values)), 0, NONE);
    waking_is("ended at the third", 0, 5, ERANGE, 2);
    values_are("the values", 0, COUNTED(values));
    want("nobody waits", (long long)vairolent_query_set(&host, 1, 0).judged, 0);
}

int main(void)
{
    numbers_of_bytes();
    numbers_of_values();
    ranges();
    places();
    wakings();
    forgotten_and_kept();
    the_same_again();
    return finished();
}
