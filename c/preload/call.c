#define _GNU_SOURCE
#include "call.h"

#include <errno.h>
#include <string.h>

#include "connection.h"
#include "load.h"
#include "operate.h"
#include "packet.h"
#include "signals.h"

/* The answer to a call that was sent, and the bytes of its data. */
static size_t answered(int socket, struct reply *reply)
{
    size_t bytes = packet_receive(socket, reply, sizeof *reply);
    if (bytes != 0)
        return bytes - sizeof reply->answer;
    connection_lost();
    reply->answer.code = ENOSYS;
    return 0;
}

/* The thread may be in a handler that was entered past us, with an operate asleep outside of it. */
size_t call(struct request request, const void *data, size_t length, struct reply *reply)
{
    struct packet packet;
    size_t bytes = 0;
    int socket;
    load();
    struct held before = signals_hold();
    operate_end_outside();
    memset(reply, 0, sizeof *reply);
    packet_fill(&packet, &request, data, length);
    reply->answer.code = packet_send(&packet, &socket);
    if (reply->answer.code == 0)
        bytes = answered(socket, reply);
    signals_release(&before);
    return bytes;
}
