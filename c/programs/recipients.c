/* Whose sleep a signal ends where a process has several threads: that of the thread it was sent to; else that of the
 * first thread, unless it has the signal blocked. */
#include "say.h"

static int set;
static volatile sig_atomic_t handled;

static void notes(int signal)
{
    (void)signal;
    handled++;
}

static void mask(int how)
{
    sigset_t signals;
    sigemptyset(&signals);
    sigaddset(&signals, SIGUSR1);
    sigaddset(&signals, SIGALRM);
    pthread_sigmask(how, &signals, NULL);
}

static void handle(void)
{
    struct sigaction action = {.sa_handler = notes};
    must(sigaction(SIGUSR1, &action, NULL));
    must(sigaction(SIGALRM, &action, NULL));
}

static void *elsewhere(void *unused)
{
    for (;;)
        pause();
    return unused;
}

/* Whoever should be woken and is not gives up after a while. */
static int sleep_at(int number)
{
    return operate_within(set, number, -1, SEM_UNDO, 4000);
}

static void *sleeps(void *unused)
{
    (void)unused;
    return (void *)(intptr_t)code(sleep_at(1));
}

/* Another thread is busy elsewhere, and could have the signal. */
static int first_sleeps(int unused)
{
    handle();
    start(elsewhere, NULL);
    say("the first sleeps", sleep_at(0));
    say("handled", handled);
    return unused;
}

/* It comes again and again, as the first one may be too early. */
static int until_alarm(int unused)
{
    handle();
    start(elsewhere, NULL);
    ualarm(3000, 3000);
    say("the first sleeps until an alarm", sleep_at(0));
    ualarm(0, 0);
    yes("handled", handled > 0);
    return unused;
}

static int both_sleep(int unused)
{
    handle();
    pthread_t other = start(sleeps, NULL);
    until_increase(set, 1, 1);
    say("of two that sleep, the first", sleep_at(0));
    say("asleep", semctl(set, 1, GETNCNT));
    must(operate(set, 1, 1, 0));
    join("the other", other);
    say("handled", handled);
    return unused;
}

static int first_blocks(int unused)
{
    handle();
    pthread_t other = start(sleeps, NULL);
    mask(SIG_BLOCK);
    until_increase(set, 1, 1);
    say("the first has it blocked", sleep_at(0));
    join("the other", other);
    say("handled", handled);
    return unused;
}

/* Sent to a thread, with both asleep. */
static int aimed(int unused)
{
    handle();
    pthread_t other = start(sleeps, NULL);
    until_increase(set, 1, 1);
    pthread_kill(other, SIGUSR1);
    join("the one that it was sent to", other);
    say("handled", handled);
    say("the first", sleep_at(0));
    return unused;
}

/* A signal for the process once the first thread sleeps; and a give, where the signal is not for it. */
static void run(const char *what, int (*body)(int), int signalled, int given)
{
    pid_t child = spawn(body, 0);
    until_increase(set, 0, 1);
    if (signalled)
        must(kill(child, SIGUSR1));
    if (given) {
        until_increase(set, 1, 0);
        must(operate(set, 0, 1, 0));
    }
    reap(what, child);
    printf("values %d %d\n", get_value(set, 0), get_value(set, 1));
    must(set_all(set, (unsigned short[]){0, 0}));
}

int main(void)
{
    begin();
    set = make(2);
    run("by a signal", first_sleeps, 1, 0);
    reap("by an alarm", spawn(until_alarm, 0));
    run("two that sleep", both_sleep, 1, 0);
    run("one blocked", first_blocks, 1, 1);
    run("sent to a thread", aimed, 0, 1);
    remove_set(set);
}
