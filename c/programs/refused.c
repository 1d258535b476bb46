/* Calls that are refused, with which error, and that they change nothing: counts, identifiers, commands and
 * pointers. */
#include "say.h"

#include <sys/mman.h>

enum { COUNT = 3, PAGE = 4096, TOO_MANY = 501 };

static int set;

static int get_all(void *values)
{
    return semctl(set, 0, GETALL, (union semun){.array = values});
}

static int get_status(void *status)
{
    return semctl(set, 0, IPC_STAT, (union semun){.buf = status});
}

static void unchanged(void)
{
    printf("values %d %d %d\n", get_value(set, 0), get_value(set, 1), get_value(set, 2));
}

static void arguments(void)
{
    static struct sembuf many[TOO_MANY];
    struct sembuf two[] = {{0, 1, 0}, {COUNT, 1, 0}};
    say("no operations", semop(set, many, 0));
    say("too many operations", semop(set, many, TOO_MANY));
    say("a semaphore too many", semop(set, two, 2));
    say("the last number of all", operate(set, 65535, 1, 0));
    say("no such set", operate(-1, 0, 1, 0));
    say("no such set", operate(2147483647, 0, 1, 0));
    say("GETVAL, no such set", get_value(-1, 0));
    say("IPC_RMID, no such set", semctl(2147483647, 0, IPC_RMID));
    say("no such command", semctl(set, 0, 999, (union semun){.val = 0}));
    say("semget of less than none", semget(IPC_PRIVATE, -1, 0600));
    say("semget of none", semget(IPC_PRIVATE, 0, 0600));
    unchanged();
}

/* The last bytes ahead of a page that nobody may use, and that page. */
static void pointers(void)
{
    char *page = mmap(NULL, 2 * PAGE, PROT_READ | PROT_WRITE, MAP_PRIVATE | MAP_ANONYMOUS, -1, 0);
    struct sembuf give = {0, 1, 0}, *last = (struct sembuf *)(void *)(page + PAGE) - 1;
    must(page == MAP_FAILED ? -1 : mprotect(page + PAGE, PAGE, PROT_NONE));
    for (int ahead = 0; ahead <= 4; ahead += 4) {
        void *bad = page + PAGE - ahead;
        printf("%d bytes\n", ahead);
        say("operations", semop(set, bad, 1));
        say("GETALL", get_all(bad));
        say("SETALL", set_all(set, bad));
        say("IPC_STAT", get_status(bad));
        say("a limit", semtimedop(set, &give, 1, bad));
    }
    *last = give;
    say("the second operation", semop(set, last, 2));
    unchanged();
    say("one that fits", semop(set, last, 1));
    unchanged();
    must(mprotect(page, PAGE, PROT_READ));
    say("GETALL to what is only read", get_all(page));
    say("IPC_STAT to what is only read", get_status(page));
    say("an operation from there", semop(set, last, 1));
    say("SETALL from there", set_all(set, (unsigned short *)(void *)page));
    unchanged();
}

int main(void)
{
    begin();
    set = make(COUNT);
    must(set_value(set, 1, 5));
    arguments();
    pointers();
    remove_set(set);
}
