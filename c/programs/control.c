/* What semctl sets and shows: values, sleepers, the last process, the set itself, and all sets. */
#include "say.h"

enum { COUNT = 3 };

static int set;

static int get_all(int from, unsigned short *values)
{
    return semctl(from, 0, GETALL, (union semun){.array = values});
}

static int status_of(int of, struct semid_ds *status)
{
    return semctl(of, 0, IPC_STAT, (union semun){.buf = status});
}

static void say_all(const char *what)
{
    unsigned short all[COUNT] = {9, 9, 9};
    say(what, get_all(set, all));
    printf("values %d %d %d\n", all[0], all[1], all[2]);
}

static void values(void)
{
    unsigned short all[COUNT] = {1, 0, 32767}, too_great[COUNT] = {1, 32768, 1};
    say_all("fresh");
    say("SETALL", set_all(set, all));
    say_all("GETALL");
    say("SETALL too great", set_all(set, too_great));
    say("SETVAL", set_value(set, 1, 32767));
    say("SETVAL too great", set_value(set, 1, 32768));
    say("SETVAL below zero", set_value(set, 1, -1));
    say("SETVAL of none", set_value(set, COUNT, 1));
    say("SETVAL below none", set_value(set, -1, 1));
    say("GETVAL", get_value(set, 1));
    say("GETVAL of none", get_value(set, COUNT));
    say("GETVAL below none", get_value(set, -1));
    say_all("GETALL");
}

static int sleeper(int number)
{
    return code(operate(set, number, number ? -2 : 0, 0));
}

/* Who sleeps where, and who operated last. SETALL wakes. */
static void counts(void)
{
    unsigned short all[COUNT] = {0, 1, 0};
    must(set_value(set, 1, 1));
    pid_t zero = spawn(sleeper, 0), increase = spawn(sleeper, 1);
    until_zero(set, 0, 1);
    until_increase(set, 1, 1);
    printf("asleep %d %d\n", semctl(set, 0, GETNCNT), semctl(set, 1, GETZCNT));
    say("GETNCNT of none", semctl(set, COUNT, GETNCNT));
    say("GETZCNT of none", semctl(set, COUNT, GETZCNT));
    say("GETPID of none", semctl(set, COUNT, GETPID));
    must(set_all(set, all));
    reap_code("for zero", zero);
    all[1] = 2;
    must(set_all(set, all));
    reap_code("for an increase", increase);
    yes("the last process is the sleeper", semctl(set, 1, GETPID) == increase);
    must(operate(set, 1, 1, 0));
    yes("now it is this one", semctl(set, 1, GETPID) == getpid());
    say_all("GETALL");
}

static int near(time_t then)
{
    time_t now = time(NULL);
    return then >= now - 15 && then <= now + 1;
}

static void status(void)
{
    struct semid_ds status;
    int fresh = must(semget(IPC_PRIVATE, 2, 0640));
    say("IPC_STAT", status_of(fresh, &status));
    printf("semaphores %lu, mode %03o\n", (unsigned long)status.sem_nsems, status.sem_perm.mode & 0777);
    yes("own", status.sem_perm.uid == geteuid() && status.sem_perm.cuid == geteuid());
    yes("own group", status.sem_perm.gid == getegid() && status.sem_perm.cgid == getegid());
    yes("without a key", status.sem_perm.__key == IPC_PRIVATE);
    yes("never operated", status.sem_otime == 0);
    say("by nobody", semctl(fresh, 0, GETPID));
    yes("made now", near(status.sem_ctime));
    must(operate(fresh, 1, 1, 0));
    must(status_of(fresh, &status));
    yes("operated now", near(status.sem_otime));
    remove_set(fresh);
}

/* Every set of the system by its index. */
static void walk(void)
{
    struct seminfo info;
    struct semid_ds status;
    int found = 0, last = semctl(0, 0, SEM_INFO, (union semun){.info = &info});
    for (int index = 0; index <= last; index++)
        found += semctl(index, 0, SEM_STAT, (union semun){.buf = &status}) == set && status.sem_nsems == COUNT;
    say("found on the walk", found);
    yes("sets and semaphores are counted", info.semusz >= 1 && info.semaem >= COUNT);
    yes("IPC_INFO", semctl(0, 0, IPC_INFO, (union semun){.info = &info}) >= 0 && info.semvmx == 32767);
}

int main(void)
{
    begin();
    set = make(COUNT);
    values();
    counts();
    status();
    walk();
    remove_set(set);
}
