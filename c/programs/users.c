/* Processes that change their user, many of several users, threads of two users, and callers of several users while
 * as many sleep as can: each call is judged by whoever makes it. */
#include "say.h"

#include <grp.h>
#include <sys/syscall.h>

enum { STRANGER = 60001, FRIENDS = 60011, CLUB = 60012, MANY = 20, ASLEEP = 7 };

static int hidden, open_to_all; /* sets of root */

static void become(uid_t user, size_t more, const gid_t *groups)
{
    must(setgroups(more, groups));
    must(setresgid(user, user, user));
    must(setresuid(user, user, user));
}

/* The present thread alone. */
static void become_in_thread(uid_t user)
{
    must((int)syscall(SYS_setresuid, user, user, user));
}

static void calls(const char *who)
{
    puts(who);
    say("GETVAL of the hidden one", get_value(hidden, 0));
    say("SETVAL of the hidden one", set_value(hidden, 0, 0));
    say("wait for zero at the hidden one", operate(hidden, 0, 0, IPC_NOWAIT));
    say("IPC_RMID of the hidden one", semctl(hidden, 0, IPC_RMID));
    say("GETVAL of the open one", get_value(open_to_all, 0));
    say("SETVAL of the open one", set_value(open_to_all, 0, 0));
    say("IPC_RMID of the open one", semctl(open_to_all, 0, IPC_RMID));
}

static void owner_of(int set)
{
    struct semid_ds status;
    must(semctl(set, 0, IPC_STAT, (union semun){.buf = &status}));
    printf("of user %u, group %u\n", status.sem_perm.uid, status.sem_perm.gid);
}

/* One process, now as this user and now as that. What it made stays whose it was made. */
static int changes(int unused)
{
    must(seteuid(STRANGER));
    int own = must(semget(IPC_PRIVATE, 1, 0600));
    for (int i = 0; i < 3; i++) {
        say("as a stranger, GETVAL of the hidden one", get_value(hidden, 0));
        say("its own", operate(own, 0, 1, 0));
        must(seteuid(0));
        say("as root, GETVAL of the hidden one", get_value(hidden, 0));
        must(seteuid(STRANGER + 1));
        say("as another, alter what it made", operate(own, 0, 1, 0));
        say("as another, remove what it made", semctl(own, 0, IPC_RMID));
        must(seteuid(0));
        must(seteuid(STRANGER));
    }
    owner_of(own);
    say("the value", get_value(own, 0));
    remove_set(own);
    return unused;
}

static int each(int number)
{
    become((uid_t)(STRANGER + number), 0, NULL);
    calls("one of many");
    int own = must(semget(IPC_PRIVATE, 1, 0600));
    owner_of(own);
    say("give", operate(own, 0, 1, 0));
    remove_set(own);
    return 0;
}

/* Of two groups that it is in besides its own. */
static int member(int unused)
{
    become(STRANGER, 2, (gid_t[]){CLUB, FRIENDS});
    for (int i = 0; i < 3; i++) {
        say("at the friends' set", operate(hidden, 0, 1, 0));
        say("at the club's", operate(open_to_all, 0, 1, 0));
        say("GETVAL of the friends'", get_value(hidden, 0));
        say("GETVAL of the club's", get_value(open_to_all, 0));
    }
    int own = must(semget(IPC_PRIVATE, 1, 0600));
    owner_of(own);
    remove_set(own);
    return unused;
}

static int make_of_group(gid_t group)
{
    must(setegid(group));
    int set = must(semget(IPC_PRIVATE, 2, 0060));
    must(setegid(0));
    return set;
}

static int sleeper(int number)
{
    become((uid_t)(STRANGER + number % 2), 0, NULL);
    return code(operate(open_to_all, 1, -1, 0));
}

/* Who calls while seven sleep. */
static void beside_sleepers(void)
{
    pid_t asleep[ASLEEP];
    for (int i = 0; i < ASLEEP; i++)
        asleep[i] = spawn(sleeper, i);
    until_increase(open_to_all, 1, ASLEEP);
    for (int i = 0; i < 3; i++) {
        reap("beside them", spawn(each, i));
        say("root", get_value(hidden, 0));
    }
    must(operate(open_to_all, 1, ASLEEP, 0));
    for (int i = 0; i < ASLEEP; i++)
        reap_code("one that slept", asleep[i]);
}

static void *wakes_later(void *unused)
{
    struct sembuf array[] = {{1, -1, 0}, {0, -2, SEM_UNDO}};
    (void)unused;
    return (void *)(intptr_t)code(semop(hidden, array, 2));
}

static void *stranger(void *unused)
{
    become_in_thread(STRANGER);
    (void)unused;
    return (void *)(intptr_t)code(get_value(hidden, 0));
}

static void *makes(void *made)
{
    become_in_thread(STRANGER);
    *(int *)made = must(semget(IPC_PRIVATE, 1, 0600));
    return NULL;
}

/* Threads of two users, whose undo is one account. */
static int threads(int unused)
{
    int made;
    pthread_t later = start(wakes_later, NULL);
    until_increase(hidden, 1, 1);
    say("take with undo", operate(hidden, 0, -3, SEM_UNDO));
    join("a thread that is a stranger", start(stranger, NULL));
    tell('r');
    join("who slept", later);
    join("a thread that is a stranger", start(stranger, NULL));
    say("what both have left", get_value(hidden, 0));
    join("it makes a set", start(makes, &made));
    owner_of(made);
    remove_set(made);
    return unused;
}

static void of_threads(void)
{
    must(set_value(hidden, 0, 10));
    pid_t child = spawn(threads, 0);
    hear();
    must(operate(hidden, 1, 1, 0));
    reap("threads", child);
    say("all is given back", get_value(hidden, 0));
}

int main(void)
{
    begin();
    if (geteuid() != 0) {
        puts("not root: nothing is tried");
        return 0;
    }
    hidden = make(2);
    open_to_all = must(semget(IPC_PRIVATE, 2, 0666));
    reap("one that changes", spawn(changes, 0));
    for (int i = 0; i < MANY; i++)
        reap("one of many", spawn(each, i));
    beside_sleepers();
    of_threads();
    remove_set(hidden);
    remove_set(open_to_all);
    hidden = make_of_group(FRIENDS);
    open_to_all = make_of_group(CLUB);
    reap("a member", spawn(member, 0));
    remove_set(hidden);
    remove_set(open_to_all);
}
