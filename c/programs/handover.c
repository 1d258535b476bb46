/* Work handed over many times: a token in a ring, a table that one may change at a time, and a bounded buffer. */
#include "say.h"

#include <sys/ioctl.h>
#include <sys/mman.h>

enum { RING = 6, ROUNDS = 300, COUNTER = RING, TABLE = RING + 1, FREE = 0, USED = 1, GUARD = 2, ROOM = 4, ITEMS = 300 };

static int set;
static volatile int *table; /* of all processes */
static int buffer[2];       /* a pipe */

/* Takes the token, counts, and gives it to the next: one array of three semaphores. */
static int member(int number)
{
    struct sembuf hand_on[] = {
        {(unsigned short)number, -1, 0}, {COUNTER, 1, 0}, {(unsigned short)((number + 1) % RING), 1, 0}};
    for (int round = 0; round < ROUNDS; round++)
        must(semop(set, hand_on, 3));
    return 0;
}

/* Every change reads, lets others run, and writes. */
static int changer(int number)
{
    for (int round = 0; round < ROUNDS; round++) {
        must(operate(set, TABLE, -1, SEM_UNDO));
        int before = *table;
        if (round % 16 == number)
            pause_shortly();
        *table = before + 1;
        must(operate(set, TABLE, 1, SEM_UNDO));
    }
    return 0;
}

/* Six processes, which begin when one is given at the first semaphore. */
static void all(const char *what, int (*body)(int), int first)
{
    pid_t child[RING];
    for (int i = 0; i < RING; i++)
        child[i] = spawn(body, i);
    must(operate(set, first, 1, 0));
    for (int i = 0; i < RING; i++)
        reap(what, child[i]);
}

static void ring(void)
{
    set = make(RING + 2);
    all("a member of the ring", member, 0);
    say("handed over", get_value(set, COUNTER));
    say("the token is back", get_value(set, 0));
    all("who changed the table", changer, TABLE);
    say("the table", *table);
    say("free again", get_value(set, TABLE));
    remove_set(set);
}

static int producer(int number)
{
    for (int item = 1; item <= ITEMS; item++) {
        struct sembuf enter[] = {{FREE, -1, 0}, {GUARD, -1, SEM_UNDO}}, leave[] = {{GUARD, 1, SEM_UNDO}, {USED, 1, 0}};
        int word = item + number, bytes;
        must(semop(set, enter, 2));
        must(write(buffer[1], &word, sizeof word) == sizeof word ? 0 : -1);
        must(ioctl(buffer[0], FIONREAD, &bytes));
        if (bytes > ROOM * (int)sizeof word)
            return 1;
        must(semop(set, leave, 2));
    }
    return 0;
}

static int consumer(int unused)
{
    for (int item = 0; item < ITEMS; item++) {
        struct sembuf enter[] = {{USED, -1, 0}, {GUARD, -1, SEM_UNDO}}, leave[] = {{GUARD, 1, SEM_UNDO}, {FREE, 1, 0}};
        int word = 0;
        must(semop(set, enter, 2));
        must(read(buffer[0], &word, sizeof word) == sizeof word ? 0 : -1);
        table[0] += word;
        table[1]++;
        must(semop(set, leave, 2));
    }
    return unused;
}

static void bounded(void)
{
    unsigned short start_values[] = {ROOM, 0, 1};
    pid_t child[4];
    table[0] = table[1] = 0;
    must(pipe(buffer));
    set = make(3);
    must(set_all(set, start_values));
    for (int i = 0; i < 4; i++)
        child[i] = spawn(i % 2 ? producer : consumer, i % 2 * i);
    for (int i = 0; i < 4; i++)
        reap(i % 2 ? "a producer" : "a consumer", child[i]);
    printf("items %d, sum %d\n", table[1], table[0]);
    printf("free %d, used %d, guard %d\n", get_value(set, FREE), get_value(set, USED), get_value(set, GUARD));
    remove_set(set);
}

int main(void)
{
    begin();
    table = mmap(NULL, 4096, PROT_READ | PROT_WRITE, MAP_SHARED | MAP_ANONYMOUS, -1, 0);
    must(table == MAP_FAILED ? -1 : 0);
    ring();
    bounded();
}
