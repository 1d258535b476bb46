#define _GNU_SOURCE
#include "connection.h"

#include <errno.h>
#include <fcntl.h>
#include <pthread.h>
#include <stdatomic.h>
#include <stdlib.h>
#include <string.h>
#include <sys/mman.h>
#include <sys/un.h>

#include "kernel.h"
#include "say.h"
#include "signals.h"

enum {
    HIGH = 700,      /* our descriptors begin here, out of the way of programs that count on low ones */
    LONG = 100000000 /* seconds: three years */
};

/* A connection, and for whom it was made: the daemon took process and user from the socket then. The file tells whether
 * the descriptor is still ours. */
struct connection {
    int descriptor;
    pid_t process;
    uid_t user;
    gid_t group;
    dev_t device;
    ino_t file;
};

/* In the room that every thread has from its start, which a signal handler can use too. */
static __thread struct connection mine __attribute__((tls_model("initial-exec"))) = {.descriptor = -1};
static __thread int left __attribute__((tls_model("initial-exec"))) = -1;
static struct sockaddr_un address = {.sun_family = AF_UNIX};
static pthread_key_t at_thread_end;

/* The present process, in memory that is zero in the child of a fork, however it is made. Where there is none such, the
 * kernel is asked each time. */
static pid_t *wiped;

static pid_t process(void)
{
    if (wiped == NULL)
        return getpid();
    if (*wiped == 0)
        *wiped = getpid();
    return *wiped;
}

static void prepare_process(void)
{
    void *page = mmap(NULL, sizeof *wiped, PROT_READ | PROT_WRITE, MAP_PRIVATE | MAP_ANONYMOUS, -1, 0);
    if (page != MAP_FAILED && madvise(page, sizeof *wiped, MADV_WIPEONFORK) == 0)
        wiped = page;
}

/* Once for the process, however many calls are refused. */
static void say_refused(const char *before, const char *name, const char *why)
{
    static atomic_flag said = ATOMIC_FLAG_INIT;
    if (!atomic_flag_test_and_set(&said))
        say("%s%s (%s): semaphore calls are refused", before, name, why);
}

/* The program may have closed our descriptor, and its number may be another file's by now. */
static bool is_ours(void)
{
    struct stat seen;
    return mine.descriptor >= 0 && kernel_fstat(mine.descriptor, &seen) == 0 && seen.st_dev == mine.device &&
           seen.st_ino == mine.file;
}

static bool is_of_user(void)
{
    return mine.user == geteuid() && mine.group == getegid();
}

/* Shut down, it ends for the daemon although a child may hold it too, from a fork in another thread. A child only lets
 * go of its parent's. */
static void close_mine(void)
{
    if (is_ours()) {
        if (mine.process == process())
            kernel_shutdown(mine.descriptor);
        kernel_close(mine.descriptor);
    }
    mine.descriptor = -1;
}

void connection_let_go(int descriptor)
{
    if (left < 0 || left != descriptor)
        return;
    kernel_close(left);
    left = -1;
}

void connection_close(void)
{
    struct held before = signals_hold();
    connection_let_go(left);
    close_mine();
    signals_release(&before);
}

void connection_leave(void)
{
    struct held before = signals_hold();
    connection_let_go(left);
    if (mine.process == process() && is_ours()) {
        kernel_shutdown(mine.descriptor);
        left = mine.descriptor;
    }
    mine.descriptor = -1;
    signals_release(&before);
}

/* If a later destructor of the thread makes a call, it connects anew, and this is run again. */
static void close_of_thread(void *unused)
{
    (void)unused;
    connection_close();
}

void connection_prepare(void)
{
    const char *path = getenv("VAIROLENT_SOCKET");
    if (path != NULL && strlen(path) < sizeof address.sun_path)
        memcpy(address.sun_path, path, strlen(path));
    prepare_process();
    pthread_key_create(&at_thread_end, close_of_thread);
    pthread_atfork(NULL, NULL, connection_close); /* the parent's is not the child's to keep open */
}

/* A socket that is connected to the daemon, or -1 and errno. With a limit on its time, however long, receiving is not
 * begun again behind a signal or a stop (signal(7)), as semop is not. */
static int connected(void)
{
    int low = kernel_socket(AF_UNIX, SOCK_SEQPACKET | SOCK_CLOEXEC);
    if (low < 0)
        return -1;
    kernel_limit_receiving(low, LONG);
    while (kernel_connect(low, &address, sizeof address) != 0) {
        int error = errno;
        if (error == EINTR)
            continue;
        kernel_close(low);
        errno = error;
        return -1;
    }
    int high = kernel_fcntl(low, F_DUPFD_CLOEXEC, HIGH);
    if (high < 0)
        return low;
    kernel_close(low);
    return high;
}

static void make(void)
{
    struct stat seen;
    if (address.sun_path[0] == '\0') {
        say_refused("no daemon", "", "VAIROLENT_SOCKET is not set, or too long");
        return;
    }
    int descriptor = connected();
    if (descriptor < 0 || kernel_fstat(descriptor, &seen) != 0) {
        say_refused("no daemon at ", address.sun_path, strerrordesc_np(errno));
        return;
    }
    mine = (struct connection){descriptor, process(), geteuid(), getegid(), seen.st_dev, seen.st_ino};
    pthread_setspecific(at_thread_end, &mine);
}

/* A child that was made by a bare system call has its parent's descriptor, and may share its parent's table of them: it
 * is left alone, which costs the child a number. The daemon takes the user at the connection: another user connects
 * anew. */
static void renew(void)
{
    if (mine.descriptor >= 0 && mine.process != process())
        mine.descriptor = -1;
    if (mine.descriptor >= 0 && !is_of_user())
        close_mine();
    if (!is_ours()) {
        mine.descriptor = -1;
        make();
    }
}

int connection_get(void)
{
    if (!connection_is(mine.descriptor) || !is_of_user()) {
        struct held before = signals_hold();
        renew();
        signals_release(&before);
    }
    return mine.descriptor;
}

bool connection_is(int descriptor)
{
    return mine.descriptor == descriptor && mine.process == process() && is_ours();
}

void connection_lost(void)
{
    say_refused("no daemon at ", address.sun_path, "it closed the connection");
    connection_close();
}
