/* System calls by their numbers. An old program may have functions of its own called send or poll, and the loader would
 * give us those. Results and errno are as the C library's. */
#ifndef VAIROLENT_KERNEL_H
#define VAIROLENT_KERNEL_H

#include <stdint.h>
#include <sys/socket.h>
#include <sys/stat.h>
#include <sys/syscall.h>
#include <unistd.h>

static inline int kernel_close(int descriptor)
{
    return (int)syscall(SYS_close, descriptor);
}

static inline ssize_t kernel_write(int descriptor, const void *bytes, size_t length)
{
    return syscall(SYS_write, descriptor, bytes, length);
}

static inline int kernel_fcntl(int descriptor, int command, long argument)
{
    return (int)syscall(SYS_fcntl, descriptor, command, argument);
}

static inline int kernel_fstat(int descriptor, struct stat *seen)
{
    return (int)syscall(SYS_fstat, descriptor, seen);
}

static inline int kernel_socket(int domain, int type)
{
    return (int)syscall(SYS_socket, domain, type, 0);
}

static inline int kernel_connect(int descriptor, const void *address, socklen_t length)
{
    return (int)syscall(SYS_connect, descriptor, address, length);
}

/* A limit on the time of receiving, in seconds. */
static inline int kernel_limit_receiving(int descriptor, int64_t seconds)
{
    int64_t limit[2] = {seconds, 0};
    return (int)syscall(SYS_setsockopt, descriptor, SOL_SOCKET, SO_RCVTIMEO, limit, sizeof limit);
}

static inline int kernel_shutdown(int descriptor)
{
    return (int)syscall(SYS_shutdown, descriptor, SHUT_RDWR);
}

/* One packet; how many were sent. */
static inline int kernel_sendmmsg(int descriptor, struct mmsghdr *packet, int flags)
{
    return (int)syscall(SYS_sendmmsg, descriptor, packet, 1, flags);
}

static inline ssize_t kernel_recv(int descriptor, void *bytes, size_t room)
{
    return syscall(SYS_recvfrom, descriptor, bytes, room, 0, NULL, NULL);
}

#endif
