/* A handler leaves a sleeping semop by siglongjmp: the sleeper is gone, and takes nothing that is given later. */
#include "say.h"

#include <setjmp.h>

static int set;
static sigjmp_buf out;

static void jumps(int signal)
{
    (void)signal;
    siglongjmp(out, 1);
}

static void handle_alarm(void)
{
    struct sigaction action = {.sa_handler = jumps};
    must(sigaction(SIGALRM, &action, NULL));
}

static int sleeps(int timed)
{
    return timed ? operate_within(set, 0, -1, SEM_UNDO, 15000) : operate(set, 0, -1, SEM_UNDO);
}

/* It does nothing with the set after its jump. */
static int idle(int timed)
{
    handle_alarm();
    if (sigsetjmp(out, 1) == 0)
        say("never said", sleeps(timed));
    tell('j');
    return pause();
}

static void jumped(const char *what, int timed)
{
    pid_t child = spawn(idle, timed);
    until_increase(set, 0, 1);
    must(kill(child, SIGALRM));
    hear();
    say(what, semctl(set, 0, GETNCNT));
    must(operate(set, 0, 1, 0));
    say("value", get_value(set, 0));
    end("the jumper", child);
    say("nothing was lost", operate(set, 0, -1, IPC_NOWAIT));
}

/* It goes on with the set at once, and sleeps and jumps again. */
static int busy(int timed)
{
    handle_alarm();
    for (volatile int i = 0; i < 5; i++) {
        if (sigsetjmp(out, 1) == 0) {
            ualarm(2000, 0);
            say("never said", sleeps(timed));
        }
        say("asleep", semctl(set, 0, GETNCNT));
        say("give", operate(set, 0, 1, 0));
        say("value", get_value(set, 0));
        say("take", operate(set, 0, -1, IPC_NOWAIT));
    }
    return 0;
}

/* After its jump it sleeps once more, and is woken as any other. */
static int sleeper_again(int timed)
{
    handle_alarm();
    if (sigsetjmp(out, 1) == 0)
        say("never said", sleeps(timed));
    say("woken", operate(set, 1, -1, 0));
    return 0;
}

static void again(int timed)
{
    pid_t child = spawn(sleeper_again, timed);
    until_increase(set, 0, 1);
    must(kill(child, SIGALRM));
    until_increase(set, 1, 1);
    say("asleep at the first", semctl(set, 0, GETNCNT));
    must(operate(set, 1, 1, 0));
    reap("the jumper", child);
    printf("values %d %d\n", get_value(set, 0), get_value(set, 1));
}

int main(void)
{
    begin();
    set = make(2);
    for (int timed = 0; timed < 2; timed++) {
        jumped("asleep after the jump", timed);
        reap("the jumper", spawn(busy, timed));
        again(timed);
    }
    remove_set(set);
}
