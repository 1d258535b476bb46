/* Mutual exclusion with undo: predictors write to two tables, and one of them dies while it holds one. */
#include <stdio.h>
#include <stdlib.h>
#include <string.h>
#include <sys/sem.h>

#include "vairolent.h"

/* Each table has a semaphore: 1 while it is free. */
enum { SPINS, PRICES, TABLES };

static struct vairolent_host host;

/* What the caller of a kernel's semop would see, with the operation that stopped it, and whom the event woke. */
static void tell(const char *what, struct vairolent_told told)
{
    if (told.code == VAIROLENT_ASLEEP)
        printf("%s: sleeps", what);
    else
        printf("%s: %s", what, told.code == 0 ? "done" : strerror(told.code));
    if (told.position.there)
        printf(" at operation %d", told.position.at);
    putchar('\n');
    for (size_t i = 0; i < told.woken; i++)
        printf("  predictor %d wakes with code %d\n", host.wakings[i].process, host.wakings[i].code);
}

int main(void)
{
    /* Both tables, or none of them. With SEM_UNDO they are given back when a predictor dies. */
    struct sembuf take[TABLES] = {{SPINS, -1, SEM_UNDO}, {PRICES, -1, SEM_UNDO}};
    struct sembuf give[TABLES] = {{SPINS, 1, SEM_UNDO}, {PRICES, 1, SEM_UNDO}};
    struct sembuf attempt[TABLES] = {{SPINS, -1, SEM_UNDO | IPC_NOWAIT}, {PRICES, -1, SEM_UNDO | IPC_NOWAIT}};
    host = vairolent_fresh();
    struct vairolent_told made = vairolent_create(&host, 1, TABLES, 0666);
    if (made.code != 0)
        return EXIT_FAILURE;
    int set = (int)made.value;
    tell("the spins are free", vairolent_set_value(&host, 1, set, SPINS, 1));
    tell("the prices are free", vairolent_set_value(&host, 1, set, PRICES, 1));

    tell("predictor 1 takes the prices", vairolent_operate(&host, 1, set, &take[PRICES], 1));
    tell("predictor 2 takes both tables", vairolent_operate(&host, 2, set, take, TABLES));
    tell("predictor 3 takes both only if they are free", vairolent_operate(&host, 3, set, attempt, TABLES));
    tell("predictor 1 dies", vairolent_exit(&host, 1));
    tell("predictor 2 gives both back", vairolent_operate(&host, 2, set, give, TABLES));

    struct vairolent_queried seen = vairolent_query(&host, 3, set, PRICES);
    printf("the prices: value %d, last predictor %d\n", seen.value, seen.last);
}
