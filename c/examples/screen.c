/* The reviewer's screen: every semaphore of a set at once, with who waits there. */
#include <stdio.h>
#include <stdlib.h>
#include <sys/sem.h>

#include "vairolent.h"

/* Prices one at a time, and a bill when no prediction is left. */
enum { PRICING, PREDICTIONS, SEMAPHORES };

/* The reviewer is a process too, and never asleep. */
enum { REVIEWER = 8 };

static void show(const struct vairolent_host *host, int set)
{
    static const char *const names[SEMAPHORES] = {"pricing", "predictions"};
    struct vairolent_queried_set seen = vairolent_query_set(host, REVIEWER, set);
    if (seen.code != 0)
        exit(EXIT_FAILURE);
    for (int i = 0; i < seen.count; i++)
        printf("%-12s value %d, last process %d, waiting %u for increase and %u for zero\n", names[i], seen.values[i],
               seen.lasts[i], (unsigned)seen.increase[i], (unsigned)seen.zero[i]);
    printf("%u asleep at this set\n\n", (unsigned)seen.judged);
}

/* Says who is woken, since each of them sleeps until it is told. */
static void operate(struct vairolent_host *host, uint8_t process, int set, unsigned short number, short amount)
{
    struct sembuf one = {.sem_num = number, .sem_op = amount, .sem_flg = SEM_UNDO};
    struct vairolent_told told = vairolent_operate(host, process, set, &one, 1);
    if (told.code != 0 && told.code != VAIROLENT_ASLEEP)
        exit(EXIT_FAILURE);
    for (size_t i = 0; i < told.woken; i++)
        printf("process %d goes on\n", host->wakings[i].process);
}

int main(void)
{
    struct vairolent_host host = vairolent_fresh();
    struct vairolent_told told = vairolent_create(&host, 1, SEMAPHORES, 0666);
    if (told.code != 0)
        return EXIT_FAILURE;
    int set = (int)told.value;
    /* Both at once, so that nobody is woken between them. */
    int32_t start[SEMAPHORES] = {[PRICING] = 1, [PREDICTIONS] = 1};
    if (vairolent_set_all(&host, 1, set, start, SEMAPHORES).code != 0)
        return EXIT_FAILURE;

    for (uint8_t process = 1; process <= 3; process++)
        operate(&host, process, set, PRICING, -1);
    operate(&host, 4, set, PREDICTIONS, 0);
    show(&host, set);

    operate(&host, 1, set, PRICING, 1);
    operate(&host, 1, set, PREDICTIONS, -1);
    show(&host, set);
    return 0;
}
