/* Waits that end by the clock: a predictor dies with the table in its hands, and those behind it do not hang. */
#include <errno.h>
#include <stdio.h>
#include <stdlib.h>
#include <sys/sem.h>

#include "vairolent.h"

/* The keeper never sleeps: a process that sleeps cannot look who waits. */
enum { DEAD = 1, PREDICTORS = 4, KEEPER = 8, TICK = 500 };

static struct vairolent_host host;

/* Who goes on, and how. An EAGAIN without a position is the end of a wait. */
static void go_on(uint64_t now, struct vairolent_told told)
{
    if (told.code != 0)
        exit(EXIT_FAILURE);
    for (size_t i = 0; i < told.woken; i++) {
        struct vairolent_waking waking = host.wakings[i];
        int gave_up = waking.code == EAGAIN && !waking.position.there;
        printf("%4u ms: predictor %d %s\n", (unsigned)now, waking.process, gave_up ? "gives up" : "has the table");
    }
}

int main(void)
{
    /* How long each predictor waits for the table, in milliseconds; with 0 it takes the table at once or not at all. */
    static const uint32_t patience[PREDICTORS + 1] = {[1] = 0, 2600, 1000, 60000};
    /* The table's semaphore is 1 while it is free. With SEM_UNDO an exit gives the table back. */
    struct sembuf take = {.sem_num = 0, .sem_op = -1, .sem_flg = SEM_UNDO};
    host = vairolent_fresh();
    struct vairolent_told told = vairolent_create(&host, KEEPER, 1, 0666);
    int set = (int)told.value;
    if (told.code != 0 || vairolent_set_value(&host, KEEPER, set, 0, 1).code != 0)
        return EXIT_FAILURE;

    for (uint8_t process = 1; process <= PREDICTORS; process++) {
        told = vairolent_operate_within(&host, process, set, &take, 1, patience[process]);
        printf("   0 ms: predictor %d %s\n", process, told.code == VAIROLENT_ASLEEP ? "waits" : "has the table");
    }

    /* A host tells the time again and again: a real one by clock_gettime(CLOCK_MONOTONIC), as often as it wants to know
     * who gives up. Here the time goes by in ticks. Nobody knows yet that the first predictor is dead. */
    uint64_t now = 0;
    while (vairolent_query(&host, KEEPER, set, 0).increase > 1) {
        now += TICK;
        go_on(now, vairolent_clock(&host, now));
    }
    printf("%4u ms: predictor %d is found dead\n", (unsigned)now, DEAD);
    go_on(now, vairolent_exit(&host, DEAD));
    return 0;
}
