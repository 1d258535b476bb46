/* Values and adjustments at the ends of their ranges: ERANGE at once, and for a sleeper. */
#include "say.h"

enum { GREATEST = 32767 };

static int set;

/* The greatest value and no more, whatever comes behind it in the array. */
static void values(void)
{
    struct sembuf up_down[] = {{0, 2, 0}, {0, -2, 0}}, down_up[] = {{0, -2, 0}, {0, 2, 0}};
    must(set_value(set, 0, GREATEST - 1));
    say("up to the greatest", operate(set, 0, 1, 0));
    say("one more", operate(set, 0, 1, 0));
    say("up and down", semop(set, up_down, 2));
    say("down and up", semop(set, down_up, 2));
    say("more than any value", operate(set, 0, -32768, IPC_NOWAIT));
    say("value", get_value(set, 0));
}

/* The kernel's least adjustment is one below the service's, so that this goes two beyond it. */
static int giver(int unused)
{
    say("give all with undo", operate(set, 0, GREATEST, SEM_UNDO));
    say("take two", operate(set, 0, -2, 0));
    say("give two with undo", operate(set, 0, 2, SEM_UNDO));
    say("give two", operate(set, 0, 2, 0));
    say("take two with undo", operate(set, 0, -2, SEM_UNDO));
    say("give two with undo", operate(set, 0, 2, SEM_UNDO));
    return unused;
}

static int taker(int unused)
{
    say("take all with undo", operate(set, 0, -GREATEST, SEM_UNDO));
    say("give one", operate(set, 0, 1, 0));
    say("take one with undo", operate(set, 0, -1, SEM_UNDO));
    say("take one", operate(set, 0, -1, 0));
    return unused;
}

static int two_sleeper(int flags)
{
    struct sembuf array[] = {{0, (short)(flags ? 0 : 5), (short)flags}, {1, -1, 0}};
    return code(semop(set, array, 2));
}

/* A value that is set ends a sleeper that waits at another semaphore: its first operation now decides. */
static void sleepers(void)
{
    must(set_value(set, 0, 0));
    pid_t child = spawn(two_sleeper, 0);
    until_increase(set, 1, 1);
    must(set_value(set, 0, GREATEST - 2));
    reap_code("by the range", child);
    must(set_value(set, 0, 0));
    child = spawn(two_sleeper, IPC_NOWAIT);
    until_increase(set, 1, 1);
    must(set_value(set, 0, 1));
    reap_code("by IPC_NOWAIT", child);
}

static void process(const char *what, int value, int (*body)(int))
{
    must(set_value(set, 0, value));
    reap(what, spawn(body, 0));
    say("value at the end", get_value(set, 0));
}

int main(void)
{
    begin();
    set = make(2);
    values();
    process("who gave", 0, giver);
    process("who took", GREATEST, taker);
    sleepers();
    remove_set(set);
}
