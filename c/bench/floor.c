/* How long the packets of semop take over a bare socket, with a server that does nothing: prints the nanoseconds.
 * usage: floor plain|round COUNT
 * plain: the packets of one call. round: those of four calls of two processes, where two answers wait for the other's
 * request. Both sides block in recv; only the server of two has to wait for both. */
#define _GNU_SOURCE
#include "measure.h"

#include <signal.h>
#include <string.h>
#include <sys/epoll.h>
#include <sys/prctl.h>
#include <sys/socket.h>
#include <sys/wait.h>
#include <unistd.h>

enum { REQUEST = 30, ANSWER = 8 }; /* bytes: a request with one operation, and its answer */

enum kind { GIVE = 1, WAIT = 2 }; /* the first byte of a request: answered at once; or when the other gives */

struct ends {
    int server, client;
};

static struct ends connect_both(void)
{
    int pair[2];
    must(socketpair(AF_UNIX, SOCK_SEQPACKET, 0, pair), "socketpair");
    return (struct ends){pair[0], pair[1]};
}

static void ask(int socket, enum kind kind)
{
    char packet[REQUEST] = {(char)kind}, answer[ANSWER];
    must((int)send(socket, packet, sizeof packet, MSG_NOSIGNAL), "send");
    must(recv(socket, answer, sizeof answer, 0) == ANSWER ? 0 : -1, "recv");
}

/* The kind of the next request. */
static enum kind hear(int socket)
{
    char packet[REQUEST];
    must(recv(socket, packet, sizeof packet, 0) == REQUEST ? 0 : -1, "recv");
    return (enum kind)packet[0];
}

static void reply(int socket)
{
    char answer[ANSWER] = {0};
    must((int)send(socket, answer, sizeof answer, MSG_NOSIGNAL), "send");
}

static void serve_one(int socket, long count)
{
    for (long i = 0; i < count; i++) {
        hear(socket);
        reply(socket);
    }
}

/* One request: who waits is answered first, then who gave. */
static void pass_on(const int sockets[2], int from, int waits[2], int given[2])
{
    int to = 1 - from;
    if (hear(sockets[from]) == GIVE) {
        if (waits[to])
            reply(sockets[to]);
        else
            given[to] = 1;
        waits[to] = 0;
        reply(sockets[from]);
    } else if (given[from]) {
        given[from] = 0;
        reply(sockets[from]);
    } else {
        waits[from] = 1;
    }
}

static void serve_two(const int sockets[2], long count)
{
    int waits[2] = {0, 0}, given[2] = {0, 0}, poll = must(epoll_create1(0), "epoll_create1");
    for (int i = 0; i < 2; i++) {
        struct epoll_event event = {.events = EPOLLIN, .data.u32 = (unsigned)i};
        must(epoll_ctl(poll, EPOLL_CTL_ADD, sockets[i], &event), "epoll_ctl");
    }
    for (long left = 4 * count; left > 0;) {
        struct epoll_event ready[2];
        int readable = must(epoll_wait(poll, ready, 2, -1), "epoll_wait");
        for (int i = 0; i < readable; i++, left--)
            pass_on(sockets, (int)ready[i].data.u32, waits, given);
    }
}

/* In a process of its own, which ends with its parent. Is it this one? */
static int is_child(void)
{
    pid_t child = must(fork(), "fork");
    if (child == 0)
        prctl(PR_SET_PDEATHSIG, SIGKILL);
    return child == 0;
}

static double alone(long count)
{
    struct ends one = connect_both();
    if (is_child()) {
        serve_one(one.server, count + 1);
        exit(0);
    }
    ask(one.client, GIVE);
    double before = nanoseconds();
    for (long i = 0; i < count; i++)
        ask(one.client, GIVE);
    return (nanoseconds() - before) / (double)count;
}

static double together(long count)
{
    struct ends first = connect_both(), second = connect_both();
    if (is_child()) {
        serve_two((const int[]){first.server, second.server}, count + 1);
        exit(0);
    }
    if (is_child()) {
        for (long i = -1; i < count; i++) {
            ask(second.client, WAIT);
            ask(second.client, GIVE);
        }
        exit(0);
    }
    double before = 0;
    for (long i = -1; i < count; i++) {
        if (i == 0)
            before = nanoseconds(); /* the first is for all to get ready */
        ask(first.client, GIVE);
        ask(first.client, WAIT);
    }
    return (nanoseconds() - before) / (double)count;
}

int main(int argc, char **argv)
{
    long count = argc == 3 ? count_of(argv[2]) : 0;
    const char *what = count > 0 ? argv[1] : "";
    int is_round = strcmp(what, "round") == 0;
    if (!is_round && strcmp(what, "plain") != 0) {
        fprintf(stderr, "usage: floor plain|round COUNT\n");
        return 2;
    }
    printf("%.0f\n", is_round ? together(count) : alone(count));
    while (wait(NULL) > 0)
        continue;
    return 0;
}
