/* Removal and keys: who slept at the set, who asks for it afterwards, and what semget says with and without its
 * flags. */
#include "say.h"

static int set;

enum { KINDS = 4 };

static int sleeper(int kind)
{
    struct sembuf array[] = {{0, 1, 0}, {1, -2, SEM_UNDO}};
    switch (kind) {
    case 0: return code(operate(set, 0, -1, SEM_UNDO));
    case 1: return code(operate(set, 1, 0, 0));
    case 2: return code(semop(set, array, 2));
    default: return code(operate_within(set, 0, -1, 0, 15000));
    }
}

/* Each kind of sleeper alone. */
static void alone(void)
{
    static const char *const names[KINDS] = {"for an increase", "for zero", "with an array", "with a limit"};
    for (int kind = 0; kind < KINDS; kind++) {
        set = make(2);
        must(set_value(set, 1, 1));
        pid_t child = spawn(sleeper, kind);
        while (semctl(set, 0, GETNCNT) + semctl(set, 1, GETNCNT) + semctl(set, 1, GETZCNT) == 0)
            pause_shortly();
        say("remove", semctl(set, 0, IPC_RMID));
        reap_code(names[kind], child);
        yes("a second time fails", semctl(set, 0, IPC_RMID) == -1);
    }
}

static int takes(int from)
{
    return code(operate(from, 0, -1, 0));
}

/* All sleepers of the set are ended; who sleeps at another sleeps on. */
static void together(void)
{
    pid_t child[KINDS];
    int other = make(1);
    set = make(1);
    pid_t elsewhere = spawn(takes, other);
    for (int i = 0; i < KINDS; i++)
        child[i] = spawn(takes, set);
    until_increase(set, 0, KINDS);
    until_increase(other, 0, 1);
    remove_set(set);
    for (int i = 0; i < KINDS; i++)
        reap_code("one of four", child[i]);
    say("asleep elsewhere", semctl(other, 0, GETNCNT));
    remove_set(other);
    reap_code("who slept elsewhere", elsewhere);
}

/* Every call fails with the identifier of a set that is gone. */
static void gone(void)
{
    unsigned short all[2] = {1, 1};
    struct semid_ds status;
    set = make(2);
    remove_set(set);
    yes("semop fails", operate(set, 0, 1, 0) == -1);
    yes("GETVAL fails", get_value(set, 0) == -1);
    yes("SETVAL fails", set_value(set, 0, 1) == -1);
    yes("SETALL fails", set_all(set, all) == -1);
    yes("IPC_STAT fails", semctl(set, 0, IPC_STAT, (union semun){.buf = &status}) == -1);
}

static int finds(key_t key, int count, int flags)
{
    int found = semget(key, count, flags);
    return found == -1 ? -1 : found == set;
}

/* 1 where semget finds the set that is there. */
static void keys(void)
{
    key_t key = fresh_key();
    say("no set yet", semget(key, 2, 0));
    say("none to make without semaphores", semget(key, 0, IPC_CREAT | 0600));
    set = must(semget(key, 2, IPC_CREAT | 0600));
    say("found", finds(key, 2, 0));
    say("found with 0 semaphores", finds(key, 0, 0));
    say("found with fewer", finds(key, 1, 0600));
    say("more than it has", semget(key, 3, 0));
    say("less than none", semget(key, -1, 0));
    say("IPC_CREAT", finds(key, 2, IPC_CREAT | 0600));
    say("IPC_CREAT with more", semget(key, 3, IPC_CREAT | 0600));
    say("IPC_CREAT and IPC_EXCL", semget(key, 2, IPC_CREAT | IPC_EXCL | 0600));
    say("IPC_EXCL alone", finds(key, 2, IPC_EXCL | 0600));
    must(set_value(set, 1, 7));
    say("the value stays", get_value(finds(key, 0, 0) == 1 ? set : -1, 1));
    int before = set;
    remove_set(set);
    say("the key after the removal", semget(key, 0, 0));
    set = must(semget(key, 3, IPC_CREAT | IPC_EXCL | 0600));
    yes("a new identifier", set != before);
    say("a new value", get_value(set, 1));
    say("its third semaphore", get_value(set, 2));
    remove_set(set);
    int first = make(1), second = make(1);
    yes("IPC_PRIVATE makes two sets", first != second);
    remove_set(first);
    remove_set(second);
}

int main(void)
{
    begin();
    alone();
    together();
    gone();
    keys();
}
