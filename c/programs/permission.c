/* Who may read, alter and remove: by the set's mode, for a stranger, for one of the group, and for root. */
#include "say.h"

#include <grp.h>

enum { STRANGER = 65534 };

static int hidden, shown, open_to_all; /* sets */
static key_t key, own_key;             /* of the shown one, and of the stranger's own */

static void become(gid_t group, size_t more)
{
    gid_t others[] = {0};
    must(setgroups(more, others));
    must(setresgid(group, group, group));
    must(setresuid(STRANGER, STRANGER, STRANGER));
}

/* All kinds of calls on a set at 0. */
static void calls(const char *what, int set)
{
    unsigned short all[1] = {0};
    struct semid_ds status;
    puts(what);
    say("alter", operate(set, 0, 1, 0));
    say("alter with undo", operate(set, 0, 1, SEM_UNDO));
    say("alter one that is not there", operate(set, 1, 1, 0));
    say("wait for zero", operate(set, 0, 0, IPC_NOWAIT));
    say("GETVAL", get_value(set, 0));
    say("GETALL", semctl(set, 0, GETALL, (union semun){.array = all}));
    say("GETNCNT", semctl(set, 0, GETNCNT));
    say("GETPID", semctl(set, 0, GETPID) == -1 ? -1 : 0);
    say("IPC_STAT", semctl(set, 0, IPC_STAT, (union semun){.buf = &status}));
    say("SETVAL", set_value(set, 0, 0));
    say("SETALL", set_all(set, all));
    say("IPC_RMID", semctl(set, 0, IPC_RMID));
}

static void finds(const char *what, int count, int flags)
{
    int found = semget(key, count, flags);
    say(what, found == -1 ? -1 : found == shown);
}

static int stranger(int unused)
{
    become(STRANGER, 0);
    calls("mode 0600", hidden);
    calls("mode 0644", shown);
    calls("mode 0666", open_to_all);
    finds("found without bits", 0, 0);
    finds("found to read", 1, 0444);
    finds("found to read and alter", 1, 0666);
    finds("found to alter", 1, 0222);
    finds("found with bits of the owner", 1, 0600);
    finds("IPC_CREAT", 1, IPC_CREAT | 0666);
    finds("IPC_CREAT and IPC_EXCL", 1, IPC_CREAT | IPC_EXCL | 0666);
    return unused;
}

/* The group's bits, not those of all. */
static int of_the_group(int set)
{
    become(0, 0);
    calls("mode 0646, of the group", set);
    return 0;
}

/* The group is one of its others. */
static int also_of_the_group(int set)
{
    become(STRANGER, 1);
    calls("mode 0646, also of the group", set);
    return 0;
}

/* A set of the stranger, which it may remove itself and root too. */
static int owner(int unused)
{
    become(STRANGER, 0);
    int own = must(semget(IPC_PRIVATE, 1, 0400));
    calls("its own of mode 0400", own);
    own = must(semget(own_key, 1, IPC_CREAT | 0600));
    say("alter its own", operate(own, 0, 1, SEM_UNDO));
    return unused;
}

static void root_has_all(void)
{
    struct semid_ds status;
    int of_stranger = must(semget(own_key, 0, 0600));
    must(semctl(of_stranger, 0, IPC_STAT, (union semun){.buf = &status}));
    printf("owner %u, creator %u, mode %03o\n", status.sem_perm.uid, status.sem_perm.cuid, status.sem_perm.mode & 0777);
    calls("the stranger's, for root", of_stranger);
}

int main(void)
{
    begin();
    if (geteuid() != 0) {
        puts("not root: nothing is tried");
        return 0;
    }
    key = fresh_key();
    own_key = fresh_key();
    hidden = make(1);
    shown = must(semget(key, 1, IPC_CREAT | IPC_EXCL | 0644));
    open_to_all = must(semget(IPC_PRIVATE, 1, 0666));
    reap("a stranger", spawn(stranger, 0));
    remove_set(hidden);
    hidden = must(semget(IPC_PRIVATE, 1, 0646));
    reap("one of the group", spawn(of_the_group, hidden));
    reap("one also of the group", spawn(also_of_the_group, hidden));
    reap("an owner", spawn(owner, 0));
    root_has_all();
    remove_set(hidden);
    remove_set(shown);
    remove_set(open_to_all);
}
