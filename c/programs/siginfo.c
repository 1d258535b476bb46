/* What a handler is told about a signal that ended a sleep: sender, value and cause are those of the signal, and of
 * several each is handled once, in their order. */
#include "say.h"

#include <sys/time.h>

enum { MOST = 8 };

static int set;
static volatile int count, values[MOST], causes[MOST], senders[MOST];

static void notes(int signal, siginfo_t *info, void *context)
{
    (void)signal;
    (void)context;
    if (count < MOST) {
        values[count] = info->si_value.sival_int;
        causes[count] = info->si_code;
        senders[count] = info->si_pid;
    }
    count++;
}

static void handle(int signal)
{
    struct sigaction action = {.sa_sigaction = notes, .sa_flags = SA_SIGINFO};
    must(sigaction(signal, &action, NULL));
}

static int told_by_kill(int unused)
{
    handle(SIGUSR1);
    say("asleep until kill", operate(set, 0, -1, 0));
    yes("once, by kill, of the parent", count == 1 && causes[0] == SI_USER && senders[0] == getppid());
    return unused;
}

static int told_by_queue(int unused)
{
    handle(SIGRTMIN);
    say("asleep until three are queued", operate(set, 0, -1, 0));
    while (count < 3)
        pause_shortly();
    yes("of the parent", causes[0] == SI_QUEUE && senders[0] == getppid());
    printf("values %d %d %d\n", values[0], values[1], values[2]);
    return unused;
}

static int told_by_timer(int unused)
{
    handle(SIGALRM);
    must(setitimer(ITIMER_REAL, &(struct itimerval){{0, 3000}, {0, 3000}}, NULL));
    say("asleep until the timer", operate(set, 0, -1, 0));
    must(setitimer(ITIMER_REAL, &(struct itimerval){{0, 0}, {0, 0}}, NULL));
    yes("by the system", count > 0 && causes[0] == SI_KERNEL);
    return unused;
}

static int waits_and_ends(int unused)
{
    until_increase(set, 0, 1);
    return unused;
}

static int told_by_child(int unused)
{
    handle(SIGCHLD);
    pid_t child = spawn(waits_and_ends, 3);
    say("asleep until a child ends", operate(set, 0, -1, 0));
    yes("once, by the child's end", count == 1 && causes[0] == CLD_EXITED && senders[0] == child);
    reap("the child", child);
    return unused;
}

int main(void)
{
    begin();
    set = make(1);
    pid_t child = spawn(told_by_kill, 0);
    until_increase(set, 0, 1);
    must(kill(child, SIGUSR1));
    reap("told by kill", child);
    child = spawn(told_by_queue, 0);
    until_increase(set, 0, 1);
    for (int i = 7; i < 10; i++)
        must(sigqueue(child, SIGRTMIN, (union sigval){.sival_int = i}));
    reap("told by queue", child);
    reap("told by a timer", spawn(told_by_timer, 0));
    reap("told by a child", spawn(told_by_child, 0));
    remove_set(set);
}
