/* Workers that take and give with undo without a pause are killed at any moment: after each wait all that the dead one
 * held is back, and it sleeps no more. */
#include "say.h"

enum { ROUNDS = 40, WORKERS = 5 };

static int set, other;

/* All of a table, then a part of another set; a whole array at once, or one after the other. */
static int worker(int kind)
{
    struct sembuf take[] = {{0, -1, SEM_UNDO}, {1, 2, SEM_UNDO}}, give[] = {{1, -2, SEM_UNDO}, {0, 1, SEM_UNDO}};
    for (;;) {
        must(semop(set, take, 2));
        if (kind % 2 == 0) {
            must(operate(other, 0, -3, SEM_UNDO));
            must(operate(other, 0, 3, SEM_UNDO));
        }
        must(semop(set, give, 2));
    }
    return 0;
}

static int is_as_at_first(void)
{
    return get_value(set, 0) == 1 && get_value(set, 1) == 0 && get_value(other, 0) == 3 &&
           semctl(set, 0, GETNCNT) == 0 && semctl(other, 0, GETNCNT) == 0;
}

/* After a time that differs from round to round. */
static void kill_later(pid_t child, int round)
{
    int status;
    nanosleep(&(struct timespec){0, round * 37 % 41 * 20000}, NULL);
    must(kill(child, SIGKILL));
    must(waitpid(child, &status, 0));
    if (!WIFSIGNALED(status))
        printf("a worker ended with %d\n", WEXITSTATUS(status));
}

static void alone(void)
{
    int good = 0;
    for (int round = 0; round < ROUNDS; round++) {
        kill_later(spawn(worker, round), round);
        good += is_as_at_first();
    }
    say("alone, as at first", good);
}

/* Every one that dies lets another in; the last leaves all as it was. */
static void together(void)
{
    pid_t child[WORKERS];
    int good = 0;
    for (int round = 0; round < ROUNDS / WORKERS; round++) {
        for (int i = 0; i < WORKERS; i++)
            child[i] = spawn(worker, i);
        for (int i = 0; i < WORKERS; i++)
            kill_later(child[i], round * WORKERS + i);
        good += is_as_at_first();
    }
    say("together, as at first", good);
}

int main(void)
{
    begin();
    set = make(2);
    other = make(1);
    must(set_value(set, 0, 1));
    must(set_value(other, 0, 3));
    alone();
    together();
    remove_set(set);
    remove_set(other);
}
