/* Threads of a process sleep at once, each in a call of its own; what they hold is the process's, and is given back
 * when the process ends, not the thread. */
#include "say.h"

enum { THREADS = 5 };

static int set;

static void *takes(void *unused)
{
    (void)unused;
    return (void *)(intptr_t)code(operate(set, 0, -1, 0));
}

static void *waits_for_zero(void *unused)
{
    (void)unused;
    return (void *)(intptr_t)code(operate(set, 1, 0, 0));
}

static void *waits_shortly(void *unused)
{
    (void)unused;
    return (void *)(intptr_t)code(operate_within(set, 2, -1, 0, 10));
}

static void together(void)
{
    pthread_t thread[THREADS];
    for (int i = 0; i < THREADS; i++)
        thread[i] = start(takes, NULL);
    until_increase(set, 0, THREADS);
    must(operate(set, 0, 2, 0));
    say("asleep", semctl(set, 0, GETNCNT));
    must(operate(set, 0, THREADS - 1, 0));
    for (int i = 0; i < THREADS; i++)
        join("a thread takes", thread[i]);
    say("left over", get_value(set, 0));
    must(set_value(set, 0, 0));
}

/* Each ends as its own call does: woken for an increase, for zero, by its time, by the removal. */
static void each_its_own(void)
{
    must(set_value(set, 1, 1));
    pthread_t increase = start(takes, NULL);
    pthread_t zero = start(waits_for_zero, NULL);
    pthread_t timed = start(waits_shortly, NULL);
    until_increase(set, 0, 1);
    until_zero(set, 1, 1);
    join("by its time", timed);
    say("main takes meanwhile", operate(set, 1, -1, 0));
    join("for zero", zero);
    pthread_t last = start(takes, NULL);
    until_increase(set, 0, 2);
    remove_set(set);
    join("removed", increase);
    join("removed", last);
    set = make(3);
}

static void *takes_with_undo(void *unused)
{
    (void)unused;
    return (void *)(intptr_t)code(operate(set, 0, -2, SEM_UNDO));
}

/* The end of a thread undoes nothing. */
static int thread_ends(int unused)
{
    join("a thread takes", start(takes_with_undo, NULL));
    say("value after the thread", get_value(set, 0));
    say("main takes", operate(set, 0, -1, SEM_UNDO));
    join("the next thread takes", start(takes_with_undo, NULL));
    say("value after the thread", get_value(set, 0));
    return unused;
}

static void *outlives(void *first)
{
    pthread_join(*(pthread_t *)first, NULL);
    must(operate(set, 2, -1, 0));
    say("the thread that is left takes", operate(set, 0, -2, SEM_UNDO));
    exit(0);
}

/* The first thread ends, and the process lives on in another. */
static int first_ends(int unused)
{
    static pthread_t first;
    (void)unused;
    first = pthread_self();
    must(operate(set, 0, -2, SEM_UNDO));
    start(outlives, &first);
    pthread_exit(NULL);
}

static void of_the_process(void)
{
    must(set_value(set, 0, 5));
    reap("the process", spawn(thread_ends, 0));
    say("value after the process", get_value(set, 0));
    pid_t child = spawn(first_ends, 0);
    until_increase(set, 2, 1);
    say("value after the first thread", get_value(set, 0));
    must(operate(set, 2, 1, 0));
    reap("the process", child);
    say("value after the process", get_value(set, 0));
}

static int forked(int unused)
{
    say("the child takes", operate(set, 1, -1, SEM_UNDO));
    say("the child gives", operate(set, 0, 1, 0));
    return unused;
}

/* A fork while a thread sleeps: the child's calls are its own. */
static void forks(void)
{
    must(set_value(set, 0, 0));
    must(set_value(set, 1, 1));
    pthread_t sleeper = start(takes, NULL);
    until_increase(set, 0, 1);
    reap("the child", spawn(forked, 0));
    join("the sleeper", sleeper);
    say("value", get_value(set, 1));
}

int main(void)
{
    begin();
    set = make(3);
    together();
    each_its_own();
    of_the_process();
    forks();
    remove_set(set);
}
