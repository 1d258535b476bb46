#define _GNU_SOURCE
#include "trap.h"

#include <errno.h>
#include <linux/audit.h>
#include <linux/filter.h>
#include <linux/seccomp.h>
#include <signal.h>
#include <stdbool.h>
#include <stddef.h>
#include <string.h>
#include <sys/prctl.h>
#include <ucontext.h>

#include "handlers.h"
#include "kernel.h"
#include "library.h"
#include "say.h"
#include "semaphores.h"

#if !defined(__linux__) || !defined(__x86_64__) || defined(__ILP32__)
#error "libvairolent-preload.so is for programs on x86-64 Linux"
#endif

enum {
    BY_FILTER = 1, /* the si_code of the filter's SIGSYS; the system's name for it is SYS_SECCOMP */
    BIT_X32 = 0x40000000
};

/* The numbers of 32-bit programs, which can only be ended. Calls 1 to 4 of ipc are of semaphores. */
enum { I386_IPC = 117, I386_IPC_SEMAPHORES = 4, I386_SEMGET = 393, I386_SEMCTL = 394, I386_SEMTIMEDOP = 420 };

/* Is our own call under way that only tries whether the trap is there? Its handler sets it to 0. */
static volatile sig_atomic_t trying;

static bool answered(const siginfo_t *info, const greg_t *registers, struct answer *answer)
{
    int first = (int)registers[REG_RDI], second = (int)registers[REG_RSI], third = (int)registers[REG_RDX];
    const struct sembuf *operations = (const struct sembuf *)registers[REG_RSI];
    void *fourth = (void *)registers[REG_R10];
    if (info->si_code != BY_FILTER || info->si_arch != AUDIT_ARCH_X86_64)
        return false;
    switch (info->si_syscall & ~BIT_X32) {
    case SYS_semget:
        *answer = semaphores_get(first, second, third);
        return true;
    case SYS_semop:
        *answer = semaphores_operate(first, operations, (unsigned)third, NULL);
        return true;
    case SYS_semtimedop:
        *answer = semaphores_operate(first, operations, (unsigned)third, fourth);
        return true;
    case SYS_semctl:
        *answer = semaphores_control(first, second, third, fourth);
        return true;
    default:
        return false;
    }
}

/* A SIGSYS that is not for one of our four calls is the program's own. */
static void trapped(int number, siginfo_t *info, void *context)
{
    greg_t *registers = ((ucontext_t *)context)->uc_mcontext.gregs;
    int before = errno;
    struct answer answer = {EINVAL, 0};
    if (trying) {
        trying = 0;
    } else if (!answered(info, registers, &answer)) {
        handlers_pass(number, info, context);
        return;
    }
    registers[REG_RAX] = answer.code == 0 ? answer.value : -answer.code;
    errno = before;
}

/* Without the trap the kernel answers EINVAL to no operations at all. */
static bool is_there(void)
{
    sigset_t only;
    sigemptyset(&only);
    sigaddset(&only, SIGSYS);
    trying = 1;
    pthread_sigmask(SIG_UNBLOCK, &only, NULL);
    syscall(SYS_semop, -1, NULL, 0);
    pthread_sigmask(SIG_BLOCK, &only, NULL);
    bool there = !trying;
    trying = 0;
    return there;
}

#define LOAD(field) BPF_STMT(BPF_LD | BPF_W | BPF_ABS, offsetof(struct seccomp_data, field))
#define KEEP(bits) BPF_STMT(BPF_ALU | BPF_AND | BPF_K, bits)
#define IF(value, then, other) BPF_JUMP(BPF_JMP | BPF_JEQ | BPF_K, value, then, other)
#define IF_ABOVE(value, then, other) BPF_JUMP(BPF_JMP | BPF_JGT | BPF_K, value, then, other)
#define DO(action) BPF_STMT(BPF_RET | BPF_K, action)

/* For 64-bit programs the number alone decides, so that the kernel keeps in mind which calls it lets through. A jump
 * counts the lines it passes over. */
static bool is_set(void)
{
    struct sock_filter lines[] = {
        LOAD(arch),
        IF(AUDIT_ARCH_X86_64, 0, 6),
        LOAD(nr),
        KEEP(~BIT_X32),
        IF(SYS_semget, 14, 0),
        IF(SYS_semop, 13, 0),
        IF(SYS_semctl, 12, 0),
        IF(SYS_semtimedop, 11, 10),
        IF(AUDIT_ARCH_I386, 0, 9),
        LOAD(nr),
        IF(I386_SEMGET, 8, 0),
        IF(I386_SEMCTL, 7, 0),
        IF(I386_SEMTIMEDOP, 6, 0),
        IF(I386_IPC, 0, 4),
        LOAD(args[0]),
        KEEP(0xffff),
        IF(0, 1, 0),
        IF_ABOVE(I386_IPC_SEMAPHORES, 0, 1),
        DO(SECCOMP_RET_ALLOW),
        DO(SECCOMP_RET_TRAP),
    };
    struct sock_fprog program = {sizeof lines / sizeof *lines, lines};
    return syscall(SYS_seccomp, SECCOMP_SET_MODE_FILTER, SECCOMP_FILTER_FLAG_TSYNC, &program) == 0;
}

void trap_prepare(void)
{
    struct sigaction action = {.sa_sigaction = trapped, .sa_flags = SA_SIGINFO | SA_NODEFER};
    sigemptyset(&action.sa_mask);
    library()->sigaction(SIGSYS, &action, NULL);
    if (is_there() || is_set())
        return;
    if (errno == EACCES && prctl(PR_SET_NO_NEW_PRIVS, 1, 0, 0, 0) == 0 && is_set())
        return;
    say("no trap for raw system calls (%s): only calls by name are served", strerrordesc_np(errno));
}
