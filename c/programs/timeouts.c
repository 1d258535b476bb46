/* Waits with a limit: none, short and long ones, one that is woken before, bad ones; and which of several ends
 * first. */
#include "say.h"

enum { SLEEPERS = 4, TRIES = 10 };

static int set;

/* Seconds; the second is more than 32 bits of milliseconds, the third more than 64 of nanoseconds. */
static const long long long_waits[] = {15, 5000000, 1000000000000};

static long long now(void)
{
    struct timespec time;
    clock_gettime(CLOCK_MONOTONIC, &time);
    return time.tv_sec * 1000000000LL + time.tv_nsec;
}

/* A wait that nobody ends: it may be longer than asked, never shorter. */
static void full(const char *what, int amount, struct timespec wait)
{
    struct sembuf operation = {0, (short)amount, 0};
    long long asked = wait.tv_sec * 1000000000LL + wait.tv_nsec;
    long long before = now();
    say(what, semtimedop(set, &operation, 1, &wait));
    puts(now() - before < asked ? "early" : "not early");
}

static void alone(void)
{
    full("no time at all", -1, (struct timespec){0, 0});
    full("a nanosecond", -1, (struct timespec){0, 1});
    full("a millisecond", -1, (struct timespec){0, 1000000});
    full("a bit more", -1, (struct timespec){0, 1999999});
    full("fifty milliseconds", -1, (struct timespec){0, 50000000});
    must(set_value(set, 0, 2));
    full("for zero", 0, (struct timespec){0, 2500001});
    full("for more than there is", -3, (struct timespec){0, 2000000});
    say("value", get_value(set, 0));
    say("asleep", semctl(set, 0, GETNCNT) + semctl(set, 0, GETZCNT));
    say("what goes needs no time", operate_within(set, 0, -2, 0, 0));
    say("IPC_NOWAIT", operate_within(set, 0, -2, IPC_NOWAIT, 10000));
}

static void bad(void)
{
    static const struct timespec waits[] = {{0, 1000000000}, {0, -1}, {-1, 0}, {0, 2000000000}, {-1, 999999999}};
    struct sembuf give = {0, 1, 0};
    for (size_t i = 0; i < sizeof waits / sizeof waits[0]; i++)
        say("a bad wait", semtimedop(set, &give, 1, &waits[i]));
    say("value", get_value(set, 0));
    say("no limit", semtimedop(set, &give, 1, NULL));
    say("a long limit", operate_within(set, 0, -1, 0, 2000000000));
}

static int woken(int which)
{
    struct sembuf take = {0, -1, 0};
    long long before = now();
    say("woken", semtimedop(set, &take, 1, &(struct timespec){long_waits[which], 5}));
    yes("before its time", now() - before < long_waits[0] * 1000000000LL);
    return 0;
}

static void before_its_time(void)
{
    for (int which = 0; which < 3; which++) {
        pid_t child = spawn(woken, which);
        until_increase(set, 0, 1);
        must(operate(set, 0, 1, 0));
        reap("the sleeper", child);
    }
}

static int sleeper(int rank)
{
    long milliseconds = 20 + 40 * rank;
    long long before = now();
    int ended = code(operate_within(set, rank % 3, -1, 0, milliseconds));
    if (ended != EAGAIN || now() - before < milliseconds * 1000000LL)
        return 1;
    tell((char)rank);
    return 0;
}

/* Do four end in the order of their times, which is not that in which they came? */
static int end_in_order(void)
{
    static const int ranks[SLEEPERS] = {3, 2, 0, 1};
    pid_t child[SLEEPERS];
    int status, right = 0;
    for (int i = 0; i < SLEEPERS; i++)
        child[i] = spawn(sleeper, ranks[i]);
    for (int i = 0; i < SLEEPERS; i++)
        right += hear() == i;
    for (int i = 0; i < SLEEPERS; i++) {
        must(waitpid(child[i], &status, 0));
        if (status != 0)
            puts("a sleeper is not ended by its time");
    }
    return right == SLEEPERS;
}

/* A busy machine may let one that has ended run late: one good try is enough. One with a longer wait sleeps on. */
static void several(void)
{
    int tries = 0;
    pid_t last = spawn(woken, 0);
    until_increase(set, 0, 1);
    while (tries < TRIES && !end_in_order())
        tries++;
    yes("in the order of their times", tries < TRIES);
    say("asleep", semctl(set, 0, GETNCNT));
    must(operate(set, 0, 1, 0));
    reap("the last", last);
    say("value", get_value(set, 0));
}

int main(void)
{
    begin();
    set = make(3);
    alone();
    bad();
    before_its_time();
    several();
    remove_set(set);
}
