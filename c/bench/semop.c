/* How long semop takes, on the kernel or on whatever serves it: prints the nanoseconds of one.
 * usage: semop plain|undo|round COUNT
 * plain: one more and one less in turn, nobody sleeps. undo: the same with SEM_UNDO. round: two processes hand a token
 * to each other and back, by four calls, two of which sleep. */
#define _GNU_SOURCE
#include "measure.h"

#include <signal.h>
#include <string.h>
#include <sys/ipc.h>
#include <sys/prctl.h>
#include <sys/sem.h>
#include <sys/wait.h>
#include <unistd.h>

static int set;

static void operate(unsigned short number, short amount, short flags)
{
    struct sembuf operation = {number, amount, flags};
    must(semop(set, &operation, 1), "semop");
}

/* So many calls, half of them up. */
static double alone(long count, short flags)
{
    operate(0, 1, flags);
    double before = nanoseconds();
    for (long i = 0; i < count; i++)
        operate(0, i % 2 == 0 ? 1 : -1, flags);
    return (nanoseconds() - before) / (double)count;
}

static void answer_each(long count)
{
    for (long i = 0; i < count; i++) {
        operate(0, -1, 0);
        operate(1, 1, 0);
    }
}

static double together(long count)
{
    pid_t parent = getpid(), other = must(fork(), "fork");
    if (other == 0) {
        prctl(PR_SET_PDEATHSIG, SIGKILL);
        if (getppid() == parent)
            answer_each(count + 1);
        exit(0);
    }
    double before = 0;
    for (long i = -1; i < count; i++) {
        if (i == 0)
            before = nanoseconds(); /* the first is for both to get ready */
        operate(0, 1, 0);
        operate(1, -1, 0);
    }
    double after = nanoseconds();
    must(waitpid(other, NULL, 0), "waitpid");
    return (after - before) / (double)count;
}

int main(int argc, char **argv)
{
    long count = argc == 3 ? count_of(argv[2]) : 0;
    const char *what = count > 0 ? argv[1] : "";
    int is_round = strcmp(what, "round") == 0, is_undo = strcmp(what, "undo") == 0;
    if (!is_round && !is_undo && strcmp(what, "plain") != 0) {
        fprintf(stderr, "usage: semop plain|undo|round COUNT\n");
        return 2;
    }
    set = must(semget(IPC_PRIVATE, 2, 0600), "semget");
    double each = is_round ? together(count) : alone(count, is_undo ? SEM_UNDO : 0);
    must(semctl(set, 0, IPC_RMID), "semctl");
    printf("%.0f\n", each);
    return 0;
}
