/* Parent and children on one set: by identifier and by key, whose adjustments are whose, who wakes first, an array as a
 * whole, and waiting for zero. */
#include "say.h"

enum { SLEEPERS = 5 };

static int set;

static int by_identifier(int unused)
{
    (void)unused;
    say("a child gives", operate(set, 0, 2, 0));
    return 0;
}

static int by_key(int key)
{
    int found = semget(key, 0, 0);
    yes("the key finds the same set", found == set);
    say("another takes", operate(found, 0, -1, 0));
    return 7;
}

static void shared(void)
{
    key_t key = fresh_key();
    set = must(semget(key, 3, IPC_CREAT | IPC_EXCL | 0600));
    reap("the child", spawn(by_identifier, 0));
    say("value", get_value(set, 0));
    reap("the other", spawn(by_key, key));
    say("value", get_value(set, 0));
    remove_set(set);
    set = make(3);
    reap("the child", spawn(by_identifier, 0));
    say("value of a set without a key", get_value(set, 0));
}

static int takes_and_ends(int unused)
{
    (void)unused;
    say("the child takes with undo", operate(set, 0, -1, SEM_UNDO));
    return 0;
}

/* Fork gives a child the set, but not its parent's adjustments. */
static void adjustments(void)
{
    must(set_value(set, 0, 5));
    say("the parent takes with undo", operate(set, 0, -2, SEM_UNDO));
    reap("the child", spawn(takes_and_ends, 0));
    say("value", get_value(set, 0));
    say("the parent gives back", operate(set, 0, 2, SEM_UNDO));
    must(set_value(set, 0, 0));
}

static int sleeper(int number)
{
    must(operate(set, 0, -1, 0));
    tell((char)('a' + number));
    return 0;
}

static void first_come(void)
{
    pid_t child[SLEEPERS];
    for (int i = 0; i < SLEEPERS; i++) {
        child[i] = spawn(sleeper, i);
        until_increase(set, 0, i + 1);
    }
    for (int i = 0; i < SLEEPERS; i++) {
        must(operate(set, 0, 1, 0));
        printf("woken: %c, asleep: %d\n", hear(), semctl(set, 0, GETNCNT));
    }
    for (int i = 0; i < SLEEPERS; i++)
        reap("the sleeper", child[i]);
    say("value", get_value(set, 0));
}

static int takes_both(int unused)
{
    struct sembuf both[] = {{0, -1, 0}, {1, -2, 0}};
    (void)unused;
    say("both taken", semop(set, both, 2));
    return 0;
}

static void counts(const char *what)
{
    printf("%s: values %d %d, asleep %d %d\n", what, get_value(set, 0), get_value(set, 1), semctl(set, 0, GETNCNT),
           semctl(set, 1, GETNCNT));
}

/* An array is applied as a whole or not at all, its operations one after the other. */
static void whole(void)
{
    struct sembuf second_stops[] = {{0, -1, 0}, {1, -1, IPC_NOWAIT}};
    struct sembuf give_take[] = {{0, 1, 0}, {0, -1, IPC_NOWAIT}};
    struct sembuf take_give[] = {{0, -1, IPC_NOWAIT}, {0, 1, 0}};
    say("give, take", semop(set, give_take, 2));
    say("take, give", semop(set, take_give, 2));
    pid_t child = spawn(takes_both, 0);
    until_increase(set, 0, 1);
    counts("none given");
    must(operate(set, 0, 1, 0));
    counts("the first given");
    say("second stops", semop(set, second_stops, 2));
    must(operate(set, 1, 1, 0));
    counts("half of the second");
    must(operate(set, 1, 1, 0));
    reap("the child", child);
    counts("all given");
}

static int waits_for_zero(int unused)
{
    (void)unused;
    return operate(set, 2, 0, 0) == 0 ? 0 : 1;
}

static void zero(void)
{
    pid_t child[3];
    must(set_value(set, 2, 2));
    say("not zero", operate(set, 2, 0, IPC_NOWAIT));
    say("too little", operate(set, 2, -3, IPC_NOWAIT));
    for (int i = 0; i < 3; i++)
        child[i] = spawn(waits_for_zero, 0);
    until_zero(set, 2, 3);
    must(operate(set, 2, -1, 0));
    say("wait for zero at one", semctl(set, 2, GETZCNT));
    must(operate(set, 2, -1, 0));
    say("wait for zero at zero", semctl(set, 2, GETZCNT));
    for (int i = 0; i < 3; i++)
        reap("who waited", child[i]);
}

int main(void)
{
    begin();
    shared();
    adjustments();
    first_come();
    whole();
    zero();
    remove_set(set);
}
