/* Three seats for six processes that are killed at random: no seat is lost, and none has two holders.
 * usage: seats KILLS [SEED]
 * Workers take seats with SEM_UNDO, note that in shared memory, stay a moment, and give them back. One of them is
 * killed at any moment, reaped, and a new one begins; now and then all are killed, and then all seats are free at once.
 * The last line is 'KILLS kills, 3 seats', with status 0, or what was wrong, with status 1. */
#include "../say.h"

#include <sched.h>
#include <stdatomic.h>
#include <stdbool.h>
#include <sys/mman.h>

enum { SEATS = 3, WORKERS = 6, PROGRESS = 1000, ALL_ONE_IN = 32, FRESH_ONE_IN = 8 };

/* Of a note: the seats held, whether a call is under way, and from there on the count of its changes. */
enum { HELD = 3, WANTS = 4, CHANGE = 8 };

/* What one worker notes, in one word: seats are noted once it has them, and struck out before they are given back. So
 * it has the seats of its note, and for a moment more. Doomed: it is about to be killed, which gives its seats back. */
struct slot {
    _Atomic uint64_t note;
    _Atomic bool doomed;
};

static struct {
    struct slot slots[WORKERS];
    _Atomic uint64_t takes;
    _Atomic int wrongs;
    char wrong[120]; /* the first one */
} *shared;

static int set;
static pid_t workers[WORKERS];
static unsigned long kills, inside, within, fresh; /* the dead: all, with a seat, within a call, new ones */
static uint64_t state;

static unsigned below(unsigned bound)
{
    state = state * 6364136223846793005 + 1442695040888963407;
    return (unsigned)(state >> 33) % bound;
}

static void accuse(const char *what, int number)
{
    if (atomic_fetch_add(&shared->wrongs, 1) == 0)
        snprintf(shared->wrong, sizeof shared->wrong, "%s: %d, at kill %lu", what, number, kills);
}

static void look(uint64_t notes[WORKERS])
{
    for (int i = 0; i < WORKERS; i++)
        notes[i] = atomic_load(&shared->slots[i].note);
}

/* The seats that were surely held at one and the same moment, right after that look: a note that has not changed since
 * was true then, and its worker lived. */
static int held_then(const uint64_t notes[WORKERS])
{
    int held = 0;
    for (int i = 0; i < WORKERS; i++)
        if (atomic_load(&shared->slots[i].note) == notes[i] && !atomic_load(&shared->slots[i].doomed))
            held += (int)(notes[i] & HELD);
    return held;
}

static void note(struct slot *slot, uint64_t what)
{
    atomic_store(&slot->note, ((atomic_load(&slot->note) / CHANGE + 1) * CHANGE) | what);
}

static void linger(unsigned most)
{
    unsigned how = below(4);
    if (how == 0)
        sched_yield();
    else if (how > 1)
        nanosleep(&(struct timespec){0, below(most) * 1000}, NULL);
}

/* Two seats come by one operation or by two. Did it get them? */
static bool take(struct slot *slot, int seats)
{
    unsigned how = below(4);
    short flags = SEM_UNDO | (how == 0 ? IPC_NOWAIT : 0);
    struct sembuf once[] = {{0, (short)-seats, flags}}, each[] = {{0, -1, flags}, {0, -1, flags}};
    bool apart = seats == 2 && below(2) == 0;
    struct timespec wait = {0, 1000000 * (1 + below(4))};
    note(slot, WANTS);
    int result = semtimedop(set, apart ? each : once, apart ? 2 : 1, how == 1 ? &wait : NULL);
    if (result != 0 && (errno != EAGAIN || how > 1))
        accuse("a take failed", errno);
    note(slot, result == 0 ? (uint64_t)seats : 0);
    return result == 0;
}

/* Gives some of the held seats back. */
static void give(struct slot *slot, int held, int seats)
{
    note(slot, (uint64_t)(held - seats) | WANTS);
    if (operate(set, 0, seats, SEM_UNDO) != 0)
        accuse("a give failed", errno);
    note(slot, (uint64_t)(held - seats));
}

static int worker(int number)
{
    struct slot *slot = &shared->slots[number];
    while (atomic_load(&shared->wrongs) == 0) {
        uint64_t notes[WORKERS];
        int seats = below(4) == 0 ? 2 : 1;
        linger(200);
        if (!take(slot, seats))
            continue;
        look(notes);
        int held = held_then(notes);
        if (held > SEATS)
            accuse("seats held by all at once", held);
        atomic_fetch_add(&shared->takes, 1);
        linger(300);
        if (seats == 2 && below(2) == 0) {
            give(slot, 2, 1);
            seats = 1;
        }
        give(slot, seats, seats);
    }
    return 0;
}

static void hire(int number)
{
    note(&shared->slots[number], 0);
    atomic_store(&shared->slots[number].doomed, false);
    state += kills + (unsigned)number + 1; /* each begins with another number */
    workers[number] = spawn(worker, number);
}

static void dismiss(int number)
{
    int status;
    atomic_store(&shared->slots[number].doomed, true);
    must(kill(workers[number], SIGKILL));
    must(waitpid(workers[number], &status, 0));
    if (!WIFSIGNALED(status) || WTERMSIG(status) != SIGKILL)
        accuse("a worker ended by itself", status);
    uint64_t last = atomic_load(&shared->slots[number].note);
    inside += (last & HELD) > 0;
    within += (last & WANTS) > 0;
    note(&shared->slots[number], 0);
    kills++;
}

/* The seats that are free and those that are surely held are never more than there are. */
static void count(void)
{
    uint64_t notes[WORKERS];
    look(notes);
    int value = get_value(set, 0), held = held_then(notes);
    if (value < 0 || value + held > SEATS)
        accuse("seats that are free or held", value + held);
}

/* What the dead held is free at once: no other call comes between the last wait and the look. */
static void dismiss_all(void)
{
    for (int i = 0, first = (int)below(WORKERS); i < WORKERS; i++) {
        if (i > 0)
            count();
        dismiss((first + i) % WORKERS);
    }
    int value = get_value(set, 0), asleep = semctl(set, 0, GETNCNT);
    if (value != SEATS)
        accuse("seats that are free when all are dead", value);
    if (asleep != 0)
        accuse("asleep when all are dead", asleep);
}

static void dismiss_one(void)
{
    int victim = (int)below(WORKERS);
    dismiss(victim);
    count();
    hire(victim);
    if (below(FRESH_ONE_IN) == 0) {
        dismiss(victim);
        fresh++;
        count();
        hire(victim);
    }
}

static void tell_progress(void)
{
    static uint64_t takes_before;
    uint64_t takes = atomic_load(&shared->takes);
    fprintf(stderr, "seats: %lu kills, %lu with a seat, %lu within a call, %lu at once after fork; %llu takes\n", kills,
            inside, within, fresh, (unsigned long long)takes);
    if (takes == takes_before)
        accuse("nobody got a seat for so many kills", PROGRESS);
    takes_before = takes;
}

static void go_on_until(unsigned long wanted)
{
    for (unsigned long told = 0; kills < wanted && atomic_load(&shared->wrongs) == 0;) {
        linger(500);
        if (below(ALL_ONE_IN) == 0) {
            dismiss_all();
            for (int i = 0; i < WORKERS; i++)
                hire(i);
        } else {
            dismiss_one();
        }
        if (kills / PROGRESS > told) {
            told = kills / PROGRESS;
            tell_progress();
        }
    }
}

/* -1 if the text is no number. */
static long number(const char *text)
{
    char *rest;
    long number = strtol(text, &rest, 10);
    return rest != text && *rest == '\0' && number >= 0 ? number : -1;
}

int main(int argc, char **argv)
{
    long wanted = argc == 2 || argc == 3 ? number(argv[1]) : -1, seed = argc == 3 ? number(argv[2]) : 1;
    if (wanted <= 0 || seed < 0) {
        fprintf(stderr, "usage: seats KILLS [SEED]\n");
        return 2;
    }
    state = (uint64_t)seed;
    shared = mmap(NULL, sizeof *shared, PROT_READ | PROT_WRITE, MAP_SHARED | MAP_ANONYMOUS, -1, 0);
    must(shared == MAP_FAILED ? -1 : 0);
    set = make(1);
    must(set_value(set, 0, SEATS));
    for (int i = 0; i < WORKERS; i++)
        hire(i);
    go_on_until((unsigned long)wanted);
    dismiss_all();
    remove_set(set);
    if (atomic_load(&shared->wrongs) > 0) {
        printf("%s\n", shared->wrong);
        return 1;
    }
    printf("%ld kills, %d seats\n", wanted, SEATS);
    return 0;
}
