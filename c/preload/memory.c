#define _GNU_SOURCE
#include "memory.h"

#include <errno.h>
#include <string.h>
#include <sys/uio.h>
#include <unistd.h>

/* Where the system does not let a process copy in its own memory, as in some containers, plain copying is left: there a
 * wrong pointer is a fault. */
static bool copied(ssize_t count, void *to, const void *from, size_t length)
{
    if (count < 0 && (errno == ENOSYS || errno == EPERM)) {
        memcpy(to, from, length);
        return true;
    }
    return count >= 0 && (size_t)count == length;
}

bool memory_read(void *to, const void *from, size_t length)
{
    struct iovec here = {to, length}, there = {(void *)from, length};
    return copied(process_vm_readv(getpid(), &here, 1, &there, 1, 0), to, from, length);
}

bool memory_write(void *to, const void *from, size_t length)
{
    struct iovec here = {(void *)from, length}, there = {to, length};
    return copied(process_vm_writev(getpid(), &here, 1, &there, 1, 0), to, from, length);
}
