/* What each class may do by each mode: an owner, one of the group, by its own group or by another that it is in, any
 * other, and root. And which error comes first where there are several. */
#include "say.h"

#include <grp.h>

enum { OWNER = 60001, OTHER = 60002, GROUP = 60011, ELSEWHERE = 60012, TOO_MANY = 501 };

enum class { OWNS, OF_GROUP, ALSO_OF_GROUP, ANY_OTHER, ROOT, CLASSES };

/* The owner has left the group: it is judged as the owner all the same. */
static const struct {
    const char *name;
    uid_t user;
    gid_t group, also;
} who[CLASSES] = {{"owner", OWNER, ELSEWHERE, ELSEWHERE},
                  {"of the group", OTHER, GROUP, ELSEWHERE},
                  {"also of the group", OTHER, ELSEWHERE, GROUP},
                  {"other", OTHER, ELSEWHERE, ELSEWHERE},
                  {"root", 0, ELSEWHERE, ELSEWHERE}};

static key_t key;
static int set, mode; /* the present one */

static void become(enum class class)
{
    gid_t group = who[class].group;
    uid_t user = who[class].user;
    must(setgroups(1, &who[class].also));
    must(setresgid(group, group, group));
    must(setresuid(user, user, user));
}

static void make_with(int bits)
{
    mode = bits;
    must(setegid(GROUP));
    must(seteuid(OWNER));
    set = must(semget(key, 1, IPC_CREAT | IPC_EXCL | bits));
    must(seteuid(0));
    must(setegid(0));
}

/* One of a class, in a process of its own. */
static void one(enum class class, int (*body)(int))
{
    pid_t child = must(fork());
    if (child == 0) {
        prctl(PR_SET_PDEATHSIG, SIGKILL);
        become(class);
        exit(body((int)class));
    }
    int status;
    must(waitpid(child, &status, 0));
    if (status != 0)
        printf("ended with %d\n", status);
}

static void add(const char *what, int result)
{
    printf(", %s %s", what, result == -1 ? strerrorname_np(errno) : "0");
}

static int up_and_down(int flags)
{
    struct sembuf array[] = {{0, 1, (short)flags}, {0, -1, (short)flags}};
    return semop(set, array, 2);
}

/* All that leaves the set as it is. */
static int tries(int class)
{
    unsigned short all[1] = {0};
    struct semid_ds status;
    printf("%03o %s", mode, who[class].name);
    add("alter", up_and_down(0));
    add("undo", up_and_down(SEM_UNDO));
    add("zero", operate(set, 0, 0, IPC_NOWAIT));
    add("GETVAL", get_value(set, 0));
    add("GETALL", semctl(set, 0, GETALL, (union semun){.array = all}));
    add("GETNCNT", semctl(set, 0, GETNCNT));
    add("GETZCNT", semctl(set, 0, GETZCNT));
    add("GETPID", semctl(set, 0, GETPID));
    add("IPC_STAT", semctl(set, 0, IPC_STAT, (union semun){.buf = &status}));
    add("SETVAL", set_value(set, 0, 0));
    add("SETALL", set_all(set, all));
    for (int bits = 0; bits < 8; bits++)
        add("semget", semget(key, 1, bits << bits % 3 * 3));
    puts("");
    return 0;
}

/* The class has these bits, and all others those that it has not. */
static void by_class(void)
{
    for (int shift = 6; shift >= 0; shift -= 3)
        for (int bits = 0; bits < 8; bits++) {
            make_with((0111 * (7 - bits) & ~(7 << shift)) | bits << shift);
            for (enum class class = OWNS; class < CLASSES; class ++)
                one(class, tries);
            remove_set(set);
        }
}

static int removes(int class)
{
    struct semid_ds status;
    memset(&status, 0, sizeof status);
    printf("%03o %s", mode, who[class].name);
    if (class != OWNS && class != ROOT)
        add("IPC_SET", semctl(set, 0, IPC_SET, (union semun){.buf = &status}));
    add("IPC_RMID", semctl(set, 0, IPC_RMID));
    puts("");
    return 0;
}

/* Neither the mode nor the group lets anybody remove. */
static void removal(void)
{
    for (int bits = 0; bits <= 0777; bits += 0777)
        for (enum class class = OWNS; class < CLASSES; class ++) {
            make_with(bits);
            one(class, removes);
            if (semctl(set, 0, IPC_RMID) == 0)
                puts("root had to remove it");
        }
}

static void operations_in_order(void)
{
    static struct sembuf many[TOO_MANY];
    struct sembuf two[] = {{0, 32767, 0}, {0, 1, 0}};
    say("no operations", semop(set, many, 0));
    say("too many", semop(set, many, TOO_MANY));
    say("a semaphore that is not there", operate(set, 1, 1, 0));
    say("no such set", operate(-1, 0, 1, 0));
    say("one that would sleep", operate(set, 0, -1, IPC_NOWAIT));
    say("one with no time to", operate_within(set, 0, -1, 0, 0));
    say("one out of range", semop(set, two, 2));
    say("operations that cannot be read", semop(set, NULL, 1));
}

static int in_order(int class)
{
    unsigned short too_great[1] = {32768};
    printf("%03o %s\n", mode, who[class].name);
    operations_in_order();
    say("GETVAL of one that is not there", get_value(set, 1));
    say("GETALL to nowhere", semctl(set, 0, GETALL, (union semun){.array = NULL}));
    say("IPC_STAT to nowhere", semctl(set, 0, IPC_STAT, (union semun){.buf = NULL}));
    say("SETALL out of range", set_all(set, too_great));
    say("SETALL from nowhere", set_all(set, NULL));
    say("IPC_RMID of none", semctl(-1, 0, IPC_RMID));
    say("no such command", semctl(set, 0, 999));
    say("there already", semget(key, 1, IPC_CREAT | IPC_EXCL | 0777));
    say("less than none", semget(key, -1, IPC_CREAT | IPC_EXCL | 0777));
    say("more than it has", semget(key, 2, 0777));
    say("to execute", semget(key, 1, 0100));
    return 0;
}

int main(void)
{
    begin();
    if (geteuid() != 0) {
        puts("not root: nothing is tried");
        return 0;
    }
    key = fresh_key();
    by_class();
    removal();
    for (int bits = 0600; bits <= 0666; bits += 066) {
        make_with(bits);
        one(ANY_OTHER, in_order);
        remove_set(set);
    }
}
