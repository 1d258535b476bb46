#define _GNU_SOURCE
#include "semaphores.h"

#include <errno.h>
#include <stdbool.h>

#include "../vairolent.h"
#include "call.h"
#include "memory.h"
#include "operate.h"

enum { OPERATIONS = VAIROLENT_OPERATIONS, NANOSECONDS = 1000000000 };

static struct answer refused(int code)
{
    return (struct answer){code, 0};
}

struct answer semaphores_get(key_t key, int count, int flags)
{
    struct reply reply;
    call((struct request){.kind = REQUEST_GET, .words = {key, count, flags}}, NULL, 0, &reply);
    return reply.answer;
}

static bool is_valid(struct timespec time)
{
    return time.tv_sec >= 0 && time.tv_nsec >= 0 && time.tv_nsec < NANOSECONDS;
}

static int64_t nanoseconds(struct timespec time)
{
    int64_t all;
    if (__builtin_mul_overflow(time.tv_sec, (int64_t)NANOSECONDS, &all) ||
        __builtin_add_overflow(all, (int64_t)time.tv_nsec, &all))
        return INT64_MAX;
    return all;
}

/* The daemon says E2BIG and EINVAL for too many operations and for none. Too many are not read: as many as are one too
 * many stand for them. A time that is none comes behind all that, and behind operations that cannot be read. */
struct answer semaphores_operate(int id, const struct sembuf *operations, unsigned count, const struct timespec *time)
{
    static const struct sembuf too_many[OPERATIONS + 1];
    struct request request = {.kind = REQUEST_OPERATE, .words = {id}, .wait = -1};
    struct timespec wait = {0, 0};
    struct sembuf unused[OPERATIONS] = {{0}};
    if (time != NULL && !memory_read(&wait, time, sizeof wait))
        return refused(EFAULT);
    if (count > OPERATIONS)
        return operate(&request, too_many, sizeof too_many);
    if (!is_valid(wait))
        return refused(memory_read(unused, operations, count * sizeof *operations) ? EINVAL : EFAULT);
    if (time != NULL)
        request.wait = nanoseconds(wait);
    return operate(&request, operations, count * sizeof *operations);
}

/* A control with data; returns how many bytes of data the reply has. */
static size_t control(const int32_t words[3], const void *data, size_t length, struct reply *reply)
{
    struct request request = {.kind = REQUEST_CONTROL, .words = {words[0], words[1], words[2]}};
    return call(request, data, length, reply);
}

static struct answer plain(const int32_t words[3], const void *data, size_t length)
{
    struct reply reply;
    control(words, data, length, &reply);
    return reply.answer;
}

/* The set and the permission are looked at before the program's array, and that before its values. */
static struct answer set_all(const int32_t words[3], const void *array)
{
    struct reply reply;
    call((struct request){.kind = REQUEST_COUNT, .words = {words[0], 1}}, NULL, 0, &reply);
    if (reply.answer.code != 0)
        return reply.answer;
    size_t count = (size_t)reply.answer.value;
    uint16_t values[CALL_VALUES];
    if (count > CALL_VALUES)
        return refused(ENOMEM);
    if (!memory_read(values, array, count * sizeof *values))
        return refused(EFAULT);
    return plain(words, values, count * sizeof *values);
}

static struct answer get_all(const int32_t words[3], void *array)
{
    struct reply reply;
    size_t length = control(words, NULL, 0, &reply);
    if (reply.answer.code == 0 && !memory_write(array, reply.data.values, length))
        return refused(EFAULT);
    return reply.answer;
}

static struct answer get_status(const int32_t words[3], void *buffer)
{
    struct reply reply;
    control(words, NULL, 0, &reply);
    const struct status *seen = &reply.data.status;
    struct semid_ds set = {.sem_perm = {.__key = (key_t)seen->key,
                                        .uid = seen->uid,
                                        .gid = seen->gid,
                                        .cuid = seen->cuid,
                                        .cgid = seen->cgid,
                                        .mode = seen->mode,
                                        .__seq = (unsigned short)seen->seq},
                           .sem_otime = seen->otime,
                           .sem_ctime = seen->ctime,
                           .sem_nsems = seen->nsems};
    if (reply.answer.code == 0 && !memory_write(buffer, &set, sizeof set))
        return refused(EFAULT);
    return reply.answer;
}

static struct answer get_limits(const int32_t words[3], void *buffer)
{
    struct reply reply;
    control(words, NULL, 0, &reply);
    if (reply.answer.code == 0 && !memory_write(buffer, &reply.data.limits, sizeof reply.data.limits))
        return refused(EFAULT);
    return reply.answer;
}

/* The daemon refuses it, but a negative identifier before the buffer, and all else behind it. */
static struct answer set_status(const int32_t words[3], const void *buffer)
{
    struct semid_ds unused = {0};
    if (words[0] >= 0 && !memory_read(&unused, buffer, sizeof unused))
        return refused(EFAULT);
    return plain(words, NULL, 0);
}

struct answer semaphores_control(int id, int number, int command, void *argument)
{
    const int32_t words[3] = {id, number, command};
    const int32_t value = (int32_t)(intptr_t)argument;
    switch (command) {
    case SETVAL:
        return plain(words, &value, sizeof value);
    case SETALL:
        return set_all(words, argument);
    case GETALL:
        return get_all(words, argument);
    case IPC_STAT:
    case SEM_STAT:
    case SEM_STAT_ANY:
        return get_status(words, argument);
    case IPC_INFO:
    case SEM_INFO:
        return get_limits(words, argument);
    case IPC_SET:
        return set_status(words, argument);
    default:
        return plain(words, NULL, 0);
    }
}
