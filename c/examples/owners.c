/* Two users, one set: a planner's own programs write the spin table, the pricing group reads it, nobody else does. */
#include <stdio.h>
#include <stdlib.h>
#include <string.h>
#include <sys/sem.h>

#include "vairolent.h"

enum { PLANNER = 1, SECOND_PROGRAM, PRICER, VISITOR, ADMINISTRATOR };

/* Users and groups, as a host that runs real programs would take them from the system. */
enum { PLANNING_USER = 1001, PRICING_USER, VISITING_USER, PLANNING = 100, PRICING, VISITING };

static void tell(const char *what, int32_t code)
{
    printf("%s: %s\n", what, code == 0 ? "done" : strerror(code));
}

int main(void)
{
    struct vairolent_host host = vairolent_fresh();
    /* What is not told stays user 0, who may do everything: here the administrator. */
    vairolent_act_as(&host, PLANNER, PLANNING_USER, PRICING);
    vairolent_act_as(&host, SECOND_PROGRAM, PLANNING_USER, PLANNING);
    vairolent_act_as(&host, PRICER, PRICING_USER, PRICING);
    vairolent_act_as(&host, VISITOR, VISITING_USER, VISITING);

    /* The owner reads and alters, the owning group reads. Both are those of the planner now, and stay so. */
    struct vairolent_told told = vairolent_create(&host, PLANNER, 1, 0640);
    if (told.code != 0)
        return EXIT_FAILURE;
    int table = (int)told.value;
    struct sembuf take = {.sem_num = 0, .sem_op = -1, .sem_flg = 0};

    tell("the planner sets it free", vairolent_set_value(&host, PLANNER, table, 0, 1).code);
    tell("the planner's second program takes it", vairolent_operate(&host, SECOND_PROGRAM, table, &take, 1).code);
    tell("the pricer reads", vairolent_query(&host, PRICER, table, 0).code);
    tell("the pricer takes it", vairolent_operate(&host, PRICER, table, &take, 1).code);
    tell("the visitor reads", vairolent_query(&host, VISITOR, table, 0).code);
    tell("the pricer removes it", vairolent_remove(&host, PRICER, table).code);

    /* A process calls by the numbers that it has then. */
    vairolent_act_as(&host, VISITOR, VISITING_USER, PRICING);
    tell("the visitor reads, now in the pricing group", vairolent_query(&host, VISITOR, table, 0).code);
    vairolent_act_as(&host, PLANNER, VISITING_USER, VISITING);
    tell("the planner reads, now as a visitor", vairolent_query(&host, PLANNER, table, 0).code);
    tell("the administrator removes it", vairolent_remove(&host, ADMINISTRATOR, table).code);
    return 0;
}
