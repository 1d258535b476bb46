/* What the tests have in common: a host, what is wanted of it, and how much of that came. */
#ifndef WANTED_H
#define WANTED_H

#include <stdio.h>
#include <string.h>
#include <sys/sem.h>

#include "vairolent.h"

static int passed, failed;

static inline void want(const char *what, long long is, long long wanted)
{
    if (is == wanted) {
        passed++;
        return;
    }
    failed++;
    printf("%s is %lld, not %lld\n", what, is, wanted);
}

/* The last line; what main returns. */
static inline int finished(void)
{
    printf("%d passed, %d failed\n", passed, failed);
    return failed != 0;
}

static struct vairolent_host host;

#define COUNTED(array) array, sizeof array / sizeof array[0]
#define OPERATION(number, amount, flags) {.sem_num = number, .sem_op = amount, .sem_flg = flags}

/* One operation. */
static inline struct vairolent_told operate(uint8_t process, int32_t set, unsigned short number, short amount,
                                            short flags)
{
    struct sembuf one = {.sem_num = number, .sem_op = amount, .sem_flg = flags};
    return vairolent_operate(&host, process, set, &one, 1);
}

/* One that takes 1 from semaphore 0, with a wait. */
static inline struct vairolent_told take_within(uint8_t process, int32_t set, uint32_t wait)
{
    struct sembuf take = OPERATION(0, -1, 0);
    return vairolent_operate_within(&host, process, set, &take, 1, wait);
}

/* An operation that decided: its position, or none. */
enum { NONE = -1 };

/* Is there this position? The archive writes a bool as 0 or 1, and a position of 0 where there is none. */
static inline void position_is(const char *what, struct vairolent_position position, int wanted)
{
    unsigned char there;
    memcpy(&there, &position.there, 1);
    want(what, there, wanted != NONE);
    want(what, position.at, wanted == NONE ? 0 : wanted);
}

static inline void told_is(const char *what, struct vairolent_told told, int32_t code, int position)
{
    want(what, told.code, code);
    position_is(what, told.position, position);
}

static inline void waking_is(const char *what, size_t place, uint8_t process, uint8_t code, int position)
{
    want(what, host.wakings[place].process, process);
    want(what, host.wakings[place].code, code);
    position_is(what, host.wakings[place].position, position);
}

/* Are the first bytes of the wakings these, and all others 0? */
static inline void wakings_are(const char *what, const uint8_t *wanted, size_t count)
{
    uint8_t bytes[sizeof host.wakings], all[sizeof host.wakings] = {0};
    memcpy(bytes, host.wakings, sizeof bytes);
    memcpy(all, wanted, count);
    want(what, memcmp(bytes, all, sizeof all), 0);
}

/* Was it refused with this code, perhaps at a position, with nobody woken and nothing of the host changed? */
static inline void refused(const char *what, struct vairolent_host before, struct vairolent_told told, int32_t code,
                           int position)
{
    static const uint8_t nobody[] = {0};
    told_is(what, told, code, position);
    want(what, (long long)(told.value + told.looks + told.woken), 0);
    want(what, memcmp(host.row, before.row, sizeof host.row), 0);
    want(what, memcmp(host.adjustments, before.adjustments, sizeof host.adjustments), 0);
    wakings_are(what, COUNTED(nobody));
}

#endif
