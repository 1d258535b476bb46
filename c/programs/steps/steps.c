/* A signal at every place of a semop: a child makes the same call again and again, and is stopped by ptrace one
 * instruction further in each time, where SIGALRM comes. What came of the call is then looked at.
 * usage: steps [HANDLER...]
 *   returns   does nothing
 *   jumps     leaves the call by siglongjmp
 *   calls     makes calls of its own, and one of them sleeps
 *   forks     has a child that makes calls, and waits for it
 * All unless given, each installed by sigaction and by the bare system call, for a call that returns at once and for
 * one that sleeps. Says how many places were tried, with status 0, or the first thing that is wrong, with status 1. */
#include "../say.h"

#include <fcntl.h>
#include <sched.h>
#include <setjmp.h>
#include <stdbool.h>
#include <sys/ptrace.h>
#include <sys/syscall.h>
#include <sys/time.h>

/* The call is made at the first semaphore, handlers give and take at the second, and wait in vain at the third. */
enum { VALUE = 7, OTHER_VALUE = 3 };

/* The fewest places of a call: the code of the preload library is hundreds of instructions. */
enum { LEAST = 3, LEAST_BY_LIBRARY = 100 };

enum { TICKS = 2000 }; /* in a second */

#define MARK() __asm__ volatile("int3" ::: "memory")

struct handler {
    const char *name;
    void (*body)(int);
};

struct kind {
    const char *name;
    int amount;
    bool sleeps;
};

static const struct kind kinds[] = {{"at once", 1, false}, {"asleep", -VALUE - 1, true}};

/* What is tried. Place: the instructions of the call that come before the signal; both processes count it. */
static const struct handler *handler;
static const struct kind *kind;
static bool is_raw;
static volatile int place;

static int set;
static pid_t parent, child; /* no child: 0 */

static void end_child(void)
{
    kill(child, SIGKILL);
    while (waitpid(child, NULL, 0) == -1 && errno == EINTR)
        ;
    child = 0;
}

/* At every exit, but only the parent's. */
static void clean_up(void)
{
    if (getpid() != parent)
        return;
    if (child != 0)
        end_child();
    remove_set(set);
}

static void say_place(void)
{
    printf("%s%s, %s, place %d: ", handler->name, is_raw ? " (raw)" : "", kind->name, place);
}

static void is(const char *what, int found, int wanted)
{
    if (found == wanted)
        return;
    say_place();
    printf("%s: %d, not %d\n", what, found, wanted);
    exit(1);
}

/* The child: what came of its call. */

static volatile struct {
    int runs; /* of the handler */
    bool jumped;
    int result, error;
} came;

static sigjmp_buf out;

static void returns(int signal)
{
    (void)signal;
    came.runs++;
}

static void jumps(int signal)
{
    returns(signal);
    siglongjmp(out, 1);
}

static int give_and_take(int unused)
{
    is("a give in a handler", operate(set, 1, 1, 0), 0);
    is("the value then", get_value(set, 1), OTHER_VALUE + 1);
    is("a take in a handler", operate(set, 1, -1, IPC_NOWAIT), 0);
    is("the value behind it", get_value(set, 1), OTHER_VALUE);
    return unused;
}

static void calls(int signal)
{
    int before = errno;
    returns(signal);
    give_and_take(0);
    is("a wait in a handler", code(operate_within(set, 2, -1, 0, 1)), EAGAIN);
    errno = before;
}

static void forks(int signal)
{
    int before = errno, end;
    returns(signal);
    must(waitpid(spawn(give_and_take, 0), &end, 0));
    if (end != 0)
        exit(1); /* it has said why */
    errno = before;
}

static const struct handler handlers[] = {{"returns", returns}, {"jumps", jumps}, {"calls", calls}, {"forks", forks}};
enum { KINDS = sizeof kinds / sizeof *kinds, HANDLERS = sizeof handlers / sizeof *handlers };

/* The bare system call needs a way back from the handler, which sigaction has put there. */
static void install(void)
{
    struct sigaction action = {.sa_handler = handler->body};
    struct {
        void (*handler)(int);
        unsigned long flags;
        void (*back)(void);
        unsigned long mask;
    } bare;
    must(sigaction(SIGALRM, &action, NULL));
    if (!is_raw)
        return;
    must((int)syscall(SYS_rt_sigaction, SIGALRM, NULL, &bare, sizeof bare.mask));
    bare.handler = handler->body;
    must((int)syscall(SYS_rt_sigaction, SIGALRM, &bare, NULL, sizeof bare.mask));
}

static void call(void)
{
    came.runs = 0;
    came.jumped = false;
    if (sigsetjmp(out, 1) == 0) {
        errno = 0;
        MARK();
        came.result = operate(set, 0, kind->amount, SEM_UNDO);
        came.error = errno;
    } else {
        came.jumped = true;
    }
    MARK();
}

/* A give that was left by a jump is done or not. */
static void look(void)
{
    int value = get_value(set, 0);
    bool given = !kind->sleeps && !(came.jumped && value == VALUE);
    is("the value", value, VALUE + given);
    is("asleep", semctl(set, 0, GETNCNT), 0);
    is("asleep of the handler", semctl(set, 2, GETNCNT), 0);
    is("the value of the handler", get_value(set, 1), OTHER_VALUE);
    is("the handler ran", came.runs > 0, true);
    if (!came.jumped) {
        is("the result", came.result, kind->sleeps ? -1 : 0);
        is("errno", came.error, kind->sleeps ? EINTR : 0);
    }
    if (given)
        is("taking it back", operate(set, 0, -1, SEM_UNDO | IPC_NOWAIT), 0);
}

/* The first calls are made beforehand, so that the linker has found their functions and the library is connected. */
static int caller(int unused)
{
    install();
    must(operate(set, 0, 1, SEM_UNDO));
    must(operate(set, 0, -1, SEM_UNDO));
    must((int)ptrace(PTRACE_TRACEME, 0, NULL, NULL));
    for (place = 1;; place++) {
        call();
        look();
    }
    return unused;
}

/* The parent: the stepper. */

static int state_file;     /* the child's /proc/PID/status */
static int status;         /* of its last stop */
static volatile int ticks; /* since the place was begun */

/* It also ends a wait of the parent, which then looks whether the child sleeps. */
static void tick(int signal)
{
    (void)signal;
    if (++ticks < TIME_ALLOWED * TICKS)
        return;
    say_place();
    printf("hung\n");
    exit(1);
}

static void begin_ticks(void)
{
    struct sigaction action = {.sa_handler = tick};
    struct timeval each = {0, 1000000 / TICKS};
    must(sigaction(SIGALRM, &action, NULL));
    must(setitimer(ITIMER_REAL, &(struct itimerval){each, each}, NULL));
}

/* In its call and not in a handler, which would have the signal blocked. */
static bool is_asleep(void)
{
    static const char state_name[] = "\nState:\t", blocked_name[] = "\nSigBlk:\t";
    char text[4096] = "";
    must((int)pread(state_file, text, sizeof text - 1, 0));
    const char *state = strstr(text, state_name), *blocked = strstr(text, blocked_name);
    if (state == NULL || blocked == NULL || state[sizeof state_name - 1] != 'S')
        return false;
    bool handles = strtoull(blocked + sizeof blocked_name - 1, NULL, 16) >> (SIGALRM - 1) & 1;
    return !handles && must(semctl(set, 0, GETNCNT)) == 1;
}

/* One that ended by itself has said why. */
static void ended(void)
{
    child = 0;
    if (WIFSIGNALED(status)) {
        say_place();
        printf("ended by SIG%s\n", sigabbrev_np(WTERMSIG(status)));
    }
    exit(1);
}

/* Waits until it stops or, in its call, sleeps. Does it sleep? */
static bool wait_for_child(bool in_call)
{
    while (waitpid(child, &status, 0) == -1) {
        must(errno == EINTR ? 0 : -1);
        if (in_call && is_asleep())
            return true;
    }
    if (!WIFSTOPPED(status))
        ended();
    return false;
}

/* Lets the child go on until it stops. If it sleeps in its call, it stops by the signal that it is sent. Did it? */
static bool go_on(enum __ptrace_request how, int signal, bool in_call)
{
    must((int)ptrace(how, child, NULL, signal));
    bool slept = wait_for_child(in_call);
    if (slept) {
        must(kill(child, SIGALRM));
        wait_for_child(false);
    }
    return slept;
}

static bool is_at_mark(void)
{
    siginfo_t info;
    must((int)ptrace(PTRACE_GETSIGINFO, child, NULL, &info));
    return info.si_signo == SIGTRAP && info.si_code == SI_KERNEL;
}

enum reached { PLACE, SLEEP, END };

/* From the mark before the call. */
static enum reached step_to_place(void)
{
    for (int i = 0; i < place; i++) {
        if (go_on(PTRACE_SINGLESTEP, 0, true))
            return SLEEP;
        if (is_at_mark())
            return END;
    }
    return PLACE;
}

/* A sleep that begins only behind the handler is ended by the signal once more. It must not come behind the call, where
 * the child looks at what came of it. */
static void go_on_to_mark(int signal, bool in_call)
{
    do {
        go_on(PTRACE_CONT, signal, in_call);
        signal = WSTOPSIG(status);
    } while (signal != SIGTRAP);
}

static void begin_child(void)
{
    char name[40];
    child = spawn(caller, 0);
    snprintf(name, sizeof name, "/proc/%d/status", child);
    state_file = must(open(name, O_RDONLY | O_CLOEXEC));
    wait_for_child(false);
}

/* The number of places. What the child gave last is undone by its end. */
static int try_places(void)
{
    enum reached reached = PLACE;
    int tried = 0;
    begin_child();
    for (place = 1; reached == PLACE; place++) {
        ticks = 0;
        reached = step_to_place();
        if (reached == END)
            break;
        go_on_to_mark(SIGALRM, true);
        go_on_to_mark(0, false);
        tried++;
    }
    end_child();
    close(state_file);
    is("the call slept", reached == SLEEP, kind->sleeps);
    is("the value at the child's end", get_value(set, 0), VALUE);
    is("asleep at the child's end", semctl(set, 0, GETNCNT), 0);
    is("enough places", tried >= (getenv("VAIROLENT_SOCKET") != NULL ? LEAST_BY_LIBRARY : LEAST), true);
    return tried;
}

static void try_handler(const struct handler *which)
{
    handler = which;
    for (kind = kinds; kind < kinds + KINDS; kind++) {
        int places = 0;
        for (int raw = 0; raw < 2; raw++) {
            is_raw = raw;
            places += try_places();
        }
        printf("%s, %s: %d places\n", handler->name, kind->name, places);
    }
}

static const struct handler *named(const char *name)
{
    for (int i = 0; i < HANDLERS; i++)
        if (strcmp(name, handlers[i].name) == 0)
            return &handlers[i];
    fprintf(stderr, "usage: steps [returns|jumps|calls|forks...]\n");
    exit(2);
}

/* Steps are twice as fast when the child and its stepper need not wake each other over cores. */
static void stay_on_this_core(void)
{
    cpu_set_t core;
    CPU_ZERO(&core);
    CPU_SET(must(sched_getcpu()), &core);
    must(sched_setaffinity(0, sizeof core, &core));
}

int main(int argc, char **argv)
{
    const struct handler *wanted[argc + HANDLERS];
    int count = argc > 1 ? argc - 1 : HANDLERS;
    for (int i = 0; i < count; i++)
        wanted[i] = argc > 1 ? named(argv[i + 1]) : &handlers[i];
    begin();
    stay_on_this_core();
    begin_ticks();
    parent = getpid();
    set = make(3);
    must(set_all(set, (unsigned short[]){VALUE, OTHER_VALUE, 0}));
    atexit(clean_up);
    for (int i = 0; i < count; i++)
        try_handler(wanted[i]);
    return 0;
}
