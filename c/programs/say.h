/* What these programs share. They run once on the kernel and once on vairolentd, and say what they asked and what came
 * of it in words that every run has alike: no process numbers, no identifiers, no times. Included ahead of all else. */
#ifndef SAY_H
#define SAY_H

#ifndef _GNU_SOURCE
#define _GNU_SOURCE
#endif
#include <errno.h>
#include <pthread.h>
#include <signal.h>
#include <stdint.h>
#include <stdio.h>
#include <stdlib.h>
#include <string.h>
#include <sys/ipc.h>
#include <sys/prctl.h>
#include <sys/sem.h>
#include <sys/wait.h>
#include <time.h>
#include <unistd.h>

enum { TIME_ALLOWED = 20 }; /* seconds; then the program hangs */

union semun {
    int val;
    struct semid_ds *buf;
    unsigned short *array;
    struct seminfo *info;
};

static int told[2]; /* the pipe of tell and hear */

/* A line: what was asked, and its result or the name of its error. */
static inline int say(const char *what, int result)
{
    if (result == -1)
        printf("%s: %s\n", what, strerrorname_np(errno));
    else
        printf("%s: %d\n", what, result);
    return result;
}

/* The error of a call, or 0: what a child or a thread hands to the one that says it. */
static inline int code(int result)
{
    return result == -1 ? errno : 0;
}

static inline void say_code(const char *what, int handed)
{
    errno = handed;
    say(what, handed ? -1 : 0);
}

static inline void yes(const char *what, int is)
{
    printf("%s: %s\n", what, is ? "yes" : "no");
}

/* For what only prepares a test. */
static inline int must(int result)
{
    if (result == -1) {
        printf("cannot go on: %s\n", strerrorname_np(errno));
        exit(2);
    }
    return result;
}

static inline void hung(int signal)
{
    static const char text[] = "hung\n";
    (void)signal;
    _exit(write(1, text, sizeof text - 1) < 0 ? 4 : 3);
}

/* Whole lines go out at once, so that those of several processes stay in order. */
static inline void begin(void)
{
    setvbuf(stdout, NULL, _IOLBF, BUFSIZ);
    signal(SIGALRM, hung);
    alarm(TIME_ALLOWED);
    must(pipe(told));
}

static inline void tell(char word)
{
    must(write(told[1], &word, 1) == 1 ? 0 : -1);
}

static inline char hear(void)
{
    char word = '?';
    must(read(told[0], &word, 1) == 1 ? 0 : -1);
    return word;
}

/* A child that ends with the body's result, or with its parent. */
static inline pid_t spawn(int (*body)(int), int argument)
{
    pid_t child = must(fork());
    if (child == 0) {
        prctl(PR_SET_PDEATHSIG, SIGKILL);
        exit(body(argument));
    }
    return child;
}

/* Waits for a child's end, and says it. */
static inline void reap(const char *what, pid_t child)
{
    int status;
    must(waitpid(child, &status, 0));
    if (WIFSIGNALED(status))
        printf("%s ended by SIG%s\n", what, sigabbrev_np(WTERMSIG(status)));
    else
        printf("%s ended with %d\n", what, WEXITSTATUS(status));
}

/* The same of one that ends with the code of its call. */
static inline void reap_code(const char *what, pid_t child)
{
    int status;
    must(waitpid(child, &status, 0));
    say_code(what, WIFEXITED(status) ? WEXITSTATUS(status) : ECHILD);
}

static inline void end(const char *what, pid_t child)
{
    must(kill(child, SIGKILL));
    reap(what, child);
}

static inline pthread_t start(void *(*body)(void *), void *argument)
{
    pthread_t thread;
    errno = pthread_create(&thread, NULL, body, argument);
    must(errno ? -1 : 0);
    return thread;
}

/* Of a thread that returns the code of its call. */
static inline void join(const char *what, pthread_t thread)
{
    void *handed;
    pthread_join(thread, &handed);
    say_code(what, (int)(intptr_t)handed);
}

/* A set of its own, without a key. */
static inline int make(int count)
{
    return must(semget(IPC_PRIVATE, count, 0600));
}

/* A key that no other run has: its file stays open, so that no other file gets its number. */
static inline key_t fresh_key(void)
{
    char name[] = "/tmp/vairolent-key-XXXXXX";
    must(mkstemp(name));
    key_t key = must(ftok(name, 'v'));
    unlink(name);
    return key;
}

static inline int operate(int set, int number, int amount, int flags)
{
    struct sembuf operation = {(unsigned short)number, (short)amount, (short)flags};
    return semop(set, &operation, 1);
}

static inline int operate_within(int set, int number, int amount, int flags, long milliseconds)
{
    struct sembuf operation = {(unsigned short)number, (short)amount, (short)flags};
    struct timespec wait = {milliseconds / 1000, milliseconds % 1000 * 1000000};
    return semtimedop(set, &operation, 1, &wait);
}

static inline int get_value(int set, int number)
{
    return semctl(set, number, GETVAL);
}

static inline int set_value(int set, int number, int value)
{
    return semctl(set, number, SETVAL, (union semun){.val = value});
}

static inline int set_all(int set, unsigned short *values)
{
    return semctl(set, 0, SETALL, (union semun){.array = values});
}

static inline void pause_shortly(void)
{
    nanosleep(&(struct timespec){0, 100000}, NULL);
}

/* Until so many sleep at the semaphore, for an increase or for zero. */
static inline void until_increase(int set, int number, int sleepers)
{
    while (must(semctl(set, number, GETNCNT)) != sleepers)
        pause_shortly();
}

static inline void until_zero(int set, int number, int sleepers)
{
    while (must(semctl(set, number, GETZCNT)) != sleepers)
        pause_shortly();
}

static inline void remove_set(int set)
{
    must(semctl(set, 0, IPC_RMID));
}

#endif
