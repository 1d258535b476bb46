/* Packets to the daemon, and from it, by the thread's connection. */
#ifndef VAIROLENT_PACKET_H
#define VAIROLENT_PACKET_H

#include <stddef.h>
#include <sys/socket.h>
#include <sys/uio.h>

#include "protocol.h"

/* It stays where it was filled, as it points to itself. The kernel sets header.msg_len, which is 0 before, when it has
 * sent it: a signal handler sees by that on which side of the sending the signal came. */
struct packet {
    struct request request;
    struct iovec parts[2];
    struct mmsghdr header;
};

/* The data may be the program's memory, and is read when the packet is sent. */
void packet_fill(struct packet *packet, const struct request *request, const void *data, size_t length);

/* Sends it in the thread's connection, whose descriptor is noted first: 0, or the error's number. EFAULT if the data
 * cannot be read, ENOSYS if there is no daemon. */
int packet_send(struct packet *packet, int *socket);

/* Sends it in this connection. */
int packet_send_by(int socket, struct packet *packet);

/* Receives what begins with an answer, and returns its bytes: 0 if the daemon is gone. */
size_t packet_receive(int socket, void *answer, size_t room);

#endif
