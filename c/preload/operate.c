#define _GNU_SOURCE
#include "operate.h"

#include <errno.h>
#include <stdatomic.h>
#include <ucontext.h>

#include "connection.h"
#include "kernel.h"
#include "load.h"
#include "packet.h"
#include "signals.h"

/* An operate is under way while packet.header.msg_len is not 0, and its answer is there when received.msg_len is not 0.
 * It is in the thread's own room and not on its stack, which may be gone by a jump out of a handler entered past us. */
static __thread struct {
    struct packet packet;
    struct answer answer;
    struct iovec place;
    struct mmsghdr received;
    int socket;
} mine __attribute__((tls_model("initial-exec")));

/* Receives one packet, recvmmsg(socket, packet, 1, 0, NULL), unless its msg_len says that it is there. A handler may end
 * the operate when that has been asked and the system call has not begun: whoever is interrupted from `asked` up to
 * `begun` goes on behind it. */
long operate_receive(int socket, struct mmsghdr *packet);
extern const char operate_receive_asked[], operate_receive_begun[];
_Static_assert(offsetof(struct mmsghdr, msg_len) == 56 && SYS_recvmmsg == 299, "as it is written here");
__asm__(".text\n"
        ".type operate_receive, @function\n"
        ".hidden operate_receive, operate_receive_asked, operate_receive_begun\n"
        ".globl operate_receive, operate_receive_asked, operate_receive_begun\n"
        "operate_receive:\n"
        "    mov $299, %eax\n"
        "    mov $1, %edx\n"
        "    xor %r10d, %r10d\n"
        "    xor %r8d, %r8d\n"
        "operate_receive_asked:\n"
        "    cmpl $0, 56(%rsi)\n"
        "    jne operate_receive_begun\n"
        "    syscall\n"
        "operate_receive_begun:\n"
        "    ret\n"
        ".size operate_receive, . - operate_receive\n");

static void leave_receive(ucontext_t *context)
{
    greg_t *at = &context->uc_mcontext.gregs[REG_RIP];
    if (*at >= (greg_t)operate_receive_asked && *at < (greg_t)operate_receive_begun)
        *at = (greg_t)operate_receive_begun;
}

/* Where the connection is closed, or the parent's, as a handler has forked, the daemon has nothing to say to us. */
static void end(void)
{
    static const struct request cancel = {.kind = REQUEST_CANCEL};
    struct packet packet;
    mine.packet.header.msg_len = 0;
    if (mine.received.msg_len != 0)
        return;
    mine.received.msg_len = sizeof mine.answer;
    mine.answer = (struct answer){EINTR, 0};
    if (!connection_is(mine.socket))
        return;
    packet_fill(&packet, &cancel, NULL, 0);
    packet_send_by(mine.socket, &packet);
    if (packet_receive(mine.socket, &mine.answer, sizeof mine.answer) == 0) {
        connection_lost();
        mine.answer = (struct answer){EIDRM, 0};
    }
}

/* A signal that came later has its handler entered first, and may have ended it. */
void operate_end(void)
{
    if (mine.packet.header.msg_len == 0)
        return;
    struct held before = signals_hold();
    if (mine.packet.header.msg_len != 0)
        end();
    signals_release(&before);
}

void operate_enter(void (*handler)(int, siginfo_t *, void *), int number, siginfo_t *info, void *context)
{
    operate_end();
    leave_receive(context);
    typeof(mine) outside = mine;
    handler(number, info, context);
    operate_end();
    mine = outside;
}

/* The wait ends with the answer, or as that of semop does: by a signal that is handled, or by a stop. */
static struct answer answered(void)
{
    operate_receive(mine.socket, &mine.received);
    if (mine.received.msg_len == 0)
        operate_end();
    return mine.answer;
}

/* A handler entered past us may have interrupted it ahead of its receiving, which must not wait for an answer that is
 * taken now: it finds the end of its connection. */
void operate_end_outside(void)
{
    if (mine.packet.header.msg_len == 0)
        return;
    operate_end();
    connection_leave();
}

struct answer operate(const struct request *request, const void *data, size_t length)
{
    load();
    operate_end_outside();
    typeof(mine) outside = mine;
    packet_fill(&mine.packet, request, data, length);
    mine.place = (struct iovec){&mine.answer, sizeof mine.answer};
    mine.received = (struct mmsghdr){.msg_hdr = {.msg_iov = &mine.place, .msg_iovlen = 1}};
    int error = packet_send(&mine.packet, &mine.socket);
    struct answer answer = error == 0 ? answered() : (struct answer){error, 0};
    connection_let_go(mine.socket);
    mine.packet.header.msg_len = 0;
    atomic_signal_fence(memory_order_seq_cst); /* a handler may come between, and must not find it under way */
    mine = outside;
    return answer;
}
