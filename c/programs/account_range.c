/* The range of the one account that a process has, over the threads that act and those that sleep. */
#include "say.h"

static int set;

static void *acts(void *amount)
{
    return (void *)(intptr_t)code(operate(set, 0, (int)(intptr_t)amount, SEM_UNDO));
}

static void act(const char *what, int amount)
{
    join(what, start(acts, (void *)(intptr_t)amount));
}

static void *sleeps(void *unused)
{
    (void)unused;
    return (void *)(intptr_t)code(operate(set, 1, -1, SEM_UNDO));
}

/* The range is that of the process, whichever thread acts and whoever sleeps. */
static int threads(int unused)
{
    act("a thread gives", 20000);
    say("taken", operate(set, 0, -20000, 0));
    start(sleeps, NULL);
    until_increase(set, 1, 1);
    act("another gives too much", 20000);
    act("gives less", 12000);
    act("gives too much", 769);
    say("value", get_value(set, 0));
    return unused;
}

/* What another thread took leaves the sleeper no room. */
static int sleeping_thread(int unused)
{
    act("a thread takes", -20000);
    pthread_t sleeper = start(acts, (void *)(intptr_t)-20000);
    until_increase(set, 0, 1);
    must(operate(set, 0, 20000, 0));
    join("who slept", sleeper);
    say("value", get_value(set, 0));
    return unused;
}

/* Taken while another thread sleeps and given back while it does not, again and again: nothing adds up. */
static int again(int unused)
{
    must(operate(set, 2, 1, SEM_UNDO));
    for (int i = 0; i < 3; i++) {
        pthread_t sleeper = start(sleeps, NULL);
        until_increase(set, 1, 1);
        say("take while it sleeps", operate(set, 0, -20000, SEM_UNDO));
        must(operate(set, 1, 1, 0));
        join("the sleeper", sleeper);
        say("give while it does not", operate(set, 0, 20000, SEM_UNDO));
    }
    return unused;
}

/* A sleeper takes with undo what another thread gave with undo: the account is even. */
static int even(int unused)
{
    pthread_t sleeper = start(acts, (void *)(intptr_t)-20000);
    until_increase(set, 0, 1);
    act("a thread gives", 20000);
    join("who slept", sleeper);
    return unused;
}

static void process(const char *what, int value, int (*body)(int))
{
    unsigned short all[] = {(unsigned short)value, 0, 0};
    must(set_all(set, all));
    reap(what, spawn(body, 0));
    printf("values at the end %d %d %d\n", get_value(set, 0), get_value(set, 1), get_value(set, 2));
}

int main(void)
{
    begin();
    set = make(3);
    process("threads", 0, threads);
    process("a sleeping thread", 20000, sleeping_thread);
    process("again", 20000, again);
    process("even", 0, even);
    remove_set(set);
}
