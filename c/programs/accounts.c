/* A process has one account of adjustments for all of its threads, also while some of them sleep. Amounts that would
 * show an account kept in parts: each part cut on its own, or done one after the other, with a waiter let in
 * between. */
#include "say.h"

enum { ACTS = 3 };

/* What the threads do in turn with undo, and another process that waits and must not be let in at the end. */
static const struct scenario {
    const char *name;
    int start, acts[ACTS], wants;
} scenarios[] = {
    {"give 5, take 5", 0, {5, -5}, -5},
    {"take 5, give 5", 5, {-5, 5}, 0},
    {"take 10, give 4", 10, {-10, 4}, -11},
    {"give 4, take 10", 6, {4, -10}, -7},
    {"give 3, take 1, take 2", 0, {3, -1, -2}, -1},
    {"take 7, give 3, give 4", 7, {-7, 3, 4}, 0},
};

static int set;

static void *acts(void *amount)
{
    return (void *)(intptr_t)code(operate(set, 0, (int)(intptr_t)amount, SEM_UNDO));
}

/* Of a thread of its own, which is over then. */
static void act(int amount)
{
    char what[32];
    snprintf(what, sizeof what, "a thread, %+d", amount);
    join(what, start(acts, (void *)(intptr_t)amount));
}

static void *sleeps(void *unused)
{
    operate(set, 1, -1, SEM_UNDO);
    return unused;
}

/* Between the acts ever more threads sleep. It ends when the parent gives at semaphore 2, or kills it. */
static int process(int which)
{
    for (int i = 0; i < ACTS; i++) {
        if (scenarios[which].acts[i] != 0)
            act(scenarios[which].acts[i]);
        if (i + 1 < ACTS) {
            start(sleeps, NULL);
            until_increase(set, 1, i + 1);
        }
    }
    must(operate(set, 2, -1, 0));
    return 0;
}

static int waiter(int wants)
{
    return code(operate(set, 0, wants, 0));
}

static void run(int which, int killed)
{
    const struct scenario *scenario = &scenarios[which];
    printf("%s, %s\n", scenario->name, killed ? "killed" : "exit");
    must(set_value(set, 0, scenario->start));
    pid_t child = spawn(process, which);
    until_increase(set, 2, 1);
    say("value", get_value(set, 0));
    pid_t other = spawn(waiter, scenario->wants);
    if (scenario->wants == 0)
        until_zero(set, 0, 1);
    else
        until_increase(set, 0, 1);
    if (killed)
        must(kill(child, SIGKILL));
    else
        must(operate(set, 2, 1, 0));
    reap("the process", child);
    printf("value %d, asleep %d %d\n", get_value(set, 0), semctl(set, 0, GETNCNT), semctl(set, 0, GETZCNT));
    must(set_value(set, 0, -scenario->wants));
    reap_code("the waiter", other);
}

int main(void)
{
    begin();
    set = make(3);
    for (int which = 0; which < (int)(sizeof scenarios / sizeof scenarios[0]); which++) {
        run(which, 0);
        run(which, 1);
    }
    remove_set(set);
}
