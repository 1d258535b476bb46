/* Signals and sleepers: a handler ends the sleep with EINTR, whatever it does itself; other signals do not. */
#include "say.h"

static int set;
static volatile sig_atomic_t handled, inner;

static void notes(int signal)
{
    (void)signal;
    handled++;
}

static void removes(int signal)
{
    (void)signal;
    inner = semctl(set, 0, IPC_RMID);
}

/* At the semaphore where its program sleeps. */
static void gives(int signal)
{
    (void)signal;
    inner = operate(set, 0, 1, 0);
}

static void sleeps(int signal)
{
    (void)signal;
    inner = operate(set, 1, -1, 0);
}

static void handle(int signal, void (*handler)(int), int flags)
{
    struct sigaction action = {.sa_handler = handler, .sa_flags = flags};
    must(sigaction(signal, &action, NULL));
}

static void mask(int how, int signal)
{
    sigset_t signals;
    sigemptyset(&signals);
    sigaddset(&signals, signal);
    must(sigprocmask(how, &signals, NULL));
}

static int asleep(int unused)
{
    (void)unused;
    say("a sleep", operate(set, 0, -1, SEM_UNDO));
    say("handled", handled);
    say("in the handler", inner);
    return 0;
}

/* A sleeper that got the signal. */
static pid_t signalled(void (*handler)(int), int flags)
{
    handle(SIGUSR1, handler, flags);
    pid_t child = spawn(asleep, 0);
    until_increase(set, 0, 1);
    must(kill(child, SIGUSR1));
    return child;
}

static void interrupted(void)
{
    reap("without SA_RESTART", signalled(notes, 0));
    reap("with SA_RESTART", signalled(notes, SA_RESTART));
    say("asleep", semctl(set, 0, GETNCNT));
    reap("a handler that gives", signalled(gives, 0));
    say("value", get_value(set, 0));
    must(set_value(set, 0, 0));
    pid_t child = signalled(sleeps, 0);
    until_increase(set, 1, 1);
    say("asleep outside of the handler", semctl(set, 0, GETNCNT));
    must(operate(set, 1, 1, 0));
    reap("a handler that sleeps", child);
    reap("a handler that removes", signalled(removes, 0));
    set = make(2);
}

/* Ignored by default, by choice, or blocked: the sleep goes on. */
static void uninterrupted(void)
{
    static const int none[] = {SIGCHLD, SIGWINCH, SIGURG, SIGUSR2, SIGUSR1};
    handle(SIGUSR2, SIG_IGN, 0);
    handle(SIGUSR1, notes, 0);
    mask(SIG_BLOCK, SIGUSR1);
    pid_t child = spawn(asleep, 0);
    until_increase(set, 0, 1);
    for (size_t i = 0; i < sizeof none / sizeof none[0]; i++)
        must(kill(child, none[i]));
    say("asleep", semctl(set, 0, GETNCNT));
    must(operate(set, 0, 1, 0));
    reap("ignored or blocked", child);
    must(set_value(set, 0, 0));
    must(raise(SIGUSR1));
    say("pending and blocked", operate_within(set, 0, -1, 0, 20));
    say("handled", handled);
    mask(SIG_UNBLOCK, SIGUSR1);
    say("handled", handled);
}

static int works_after_stop(int unused)
{
    must(operate(set, 1, -1, SEM_UNDO));
    tell('w');
    while (get_value(set, 0) == 0)
        pause_shortly();
    say("after stop and go on", operate(set, 0, -1, 0));
    return unused;
}

static void stopped(void)
{
    int status;
    must(set_value(set, 1, 1));
    pid_t child = spawn(works_after_stop, 0);
    hear();
    must(kill(child, SIGSTOP));
    must(waitpid(child, &status, WUNTRACED));
    yes("stopped", WIFSTOPPED(status));
    must(operate(set, 0, 1, 0));
    say("what it holds stays held", get_value(set, 1));
    must(kill(child, SIGCONT));
    reap("it", child);
    say("given back", get_value(set, 1));
}

int main(void)
{
    begin();
    set = make(2);
    interrupted();
    uninterrupted();
    stopped();
    remove_set(set);
}
