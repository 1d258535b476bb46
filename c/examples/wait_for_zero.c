/* A wait for zero: a bill is written when the last of three predictions is in. */
#include <stdio.h>
#include <stdlib.h>
#include <sys/sem.h>

#include "vairolent.h"

enum { BILL = 4, PREDICTIONS = 3 };

int main(void)
{
    struct vairolent_host host = vairolent_fresh();
    struct vairolent_told told = vairolent_create(&host, BILL, 1, 0666);
    if (told.code != 0)
        return EXIT_FAILURE;
    int set = (int)told.value;

    /* The semaphore counts the predictions that are still to come. */
    vairolent_set_value(&host, BILL, set, 0, PREDICTIONS);
    struct sembuf all_in = {.sem_num = 0, .sem_op = 0, .sem_flg = 0};
    told = vairolent_operate(&host, BILL, set, &all_in, 1);
    if (told.code != VAIROLENT_ASLEEP)
        return EXIT_FAILURE;
    printf("the bill waits\n");

    struct sembuf one_in = {.sem_num = 0, .sem_op = -1, .sem_flg = 0};
    for (uint8_t process = 1; process <= PREDICTIONS; process++) {
        told = vairolent_operate(&host, process, set, &one_in, 1);
        struct vairolent_queried seen = vairolent_query(&host, process, set, 0);
        printf("prediction %d is in: %d to come, %u waiting for zero, last process %d\n", process, seen.value,
               (unsigned)seen.zero, seen.last);
        for (size_t i = 0; i < told.woken; i++)
            if (host.wakings[i].process == BILL && host.wakings[i].code == 0)
                printf("the bill is written\n");
    }
    if (vairolent_remove(&host, BILL, set).code != 0)
        return EXIT_FAILURE;
}
