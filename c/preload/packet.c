#define _GNU_SOURCE
#include "packet.h"

#include <errno.h>

#include "connection.h"
#include "kernel.h"

void packet_fill(struct packet *packet, const struct request *request, const void *data, size_t length)
{
    packet->request = *request;
    packet->request.version = PROTOCOL_VERSION;
    packet->parts[0] = (struct iovec){&packet->request, sizeof packet->request};
    packet->parts[1] = (struct iovec){(void *)data, length};
    packet->header = (struct mmsghdr){.msg_hdr = {.msg_iov = packet->parts, .msg_iovlen = length == 0 ? 1 : 2}};
}

int packet_send_by(int socket, struct packet *packet)
{
    while (kernel_sendmmsg(socket, &packet->header, MSG_NOSIGNAL) < 0)
        if (errno != EINTR)
            return errno;
    return 0;
}

/* A daemon may have ended and another begun since the last call: a request that could not be sent was not seen, and is
 * sent once more in a new connection. */
int packet_send(struct packet *packet, int *socket)
{
    for (int attempt = 0; attempt < 2; attempt++) {
        *socket = connection_get();
        if (*socket < 0)
            return ENOSYS;
        int error = packet_send_by(*socket, packet);
        if (error == 0 || error == EFAULT || error == ENOMEM)
            return error;
        connection_close();
    }
    connection_lost();
    return ENOSYS;
}

size_t packet_receive(int socket, void *answer, size_t room)
{
    ssize_t bytes;
    do
        bytes = kernel_recv(socket, answer, room);
    while (bytes < 0 && errno == EINTR);
    return bytes < (ssize_t)sizeof(struct answer) ? 0 : (size_t)bytes;
}
