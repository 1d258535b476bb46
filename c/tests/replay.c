/* Replays a run file from standard input through the library, and writes the lines that the proved program replay
 * writes: the comparison holds the two to each other. */
#include <errno.h>
#include <inttypes.h>
#include <stdio.h>
#include <string.h>
#include <sys/sem.h>

#include "vairolent.h"

enum { FILE_MAX = 65535, HEAD = 2, ENTRY = 4 };
enum { CREATE = 1, OPERATE, SET_VALUE, REMOVE, SIGNAL, EXIT, QUERY, OPERATE_WITHIN, CLOCK, SET_ALL, READ_ALL, ACT_AS };
enum { KINDS = ACT_AS + 1 };
enum { BAD_TABLE = 201, BAD_OFFSET, BAD_KIND, BAD_BODY };

/* The most operations or values that a body counts. */
enum { COUNTED_MAX = 255 };

/* The bytes of a body, up to the number of its operations or values if it has any, and the bytes of each of these. */
struct shape {
    size_t bytes;
    size_t each;
};

static const struct shape shapes[KINDS] = {
    [CREATE] = {5, 0},
    [OPERATE] = {7, VAIROLENT_OPERATION_BYTES},
    [SET_VALUE] = {12, 0},
    [REMOVE] = {6, 0},
    [SIGNAL] = {2, 0},
    [EXIT] = {2, 0},
    [QUERY] = {8, 0},
    [OPERATE_WITHIN] = {11, VAIROLENT_OPERATION_BYTES},
    [CLOCK] = {9, 0},
    [SET_ALL] = {7, sizeof(int32_t)},
    [READ_ALL] = {6, 0},
    [ACT_AS] = {10, 0},
};

/* A run file. One byte more than the longest tells that it is too long. */
static uint8_t file[FILE_MAX + 1];
static size_t length;

static struct vairolent_host host;

/* The number in so many bytes, little-endian. */
static uint64_t number_at(const uint8_t *at, int bytes)
{
    uint64_t number = 0;
    for (int i = bytes; i-- > 0;)
        number = number << 8 | at[i];
    return number;
}

static int32_t signed_at(const uint8_t *at)
{
    return (int32_t)number_at(at, 4);
}

static size_t events(void)
{
    return number_at(file, HEAD);
}

static size_t length_of(size_t event)
{
    return number_at(file + HEAD + ENTRY * event + 2, 2);
}

/* What is wrong with a body of at least one byte; 0 if nothing. */
static int body_code(const uint8_t *body, size_t bytes)
{
    if (body[0] >= KINDS || shapes[body[0]].bytes == 0)
        return BAD_KIND;
    struct shape shape = shapes[body[0]];
    if (bytes < shape.bytes)
        return BAD_BODY;
    return bytes == shape.bytes + shape.each * body[shape.bytes - 1] ? 0 : BAD_BODY;
}

/* What is wrong with the offsets and the end; 0 if nothing. */
static int offsets_code(void)
{
    size_t end = HEAD + ENTRY * events();
    for (size_t i = 0; i < events(); i++) {
        if (number_at(file + HEAD + ENTRY * i, 2) != end)
            return BAD_OFFSET;
        end += length_of(i);
    }
    return end == length ? 0 : BAD_OFFSET;
}

/* What is wrong with the head, the table and then the bodies; 0 if nothing. */
static int file_code(void)
{
    if (length > FILE_MAX || length < HEAD || length < HEAD + ENTRY * events())
        return BAD_TABLE;
    int code = offsets_code();
    const uint8_t *body = file + HEAD + ENTRY * events();
    for (size_t i = 0; i < events() && code == 0; i++) {
        code = length_of(i) == 0 ? BAD_BODY : body_code(body, length_of(i));
        body += length_of(i);
    }
    return code;
}

/* Notes what does not hold. */
static int faults;

static void want(const char *what, int holds)
{
    if (holds)
        return;
    faults++;
    fprintf(stderr, "replay: it does not hold that %s\n", what);
}

/* Does the whole set show the same at this number, and do its counts add up? */
static void check_set(struct vairolent_queried_set set, uint16_t number, struct vairolent_queried seen)
{
    size_t waiting = 0;
    for (size_t i = 0; i < VAIROLENT_SEMAPHORES; i++)
        waiting += set.increase[i] + set.zero[i];
    want("the wait counts of a set are the arrays that were judged", waiting == set.judged);
    want("a query is refused as the whole set is, or for its number",
         seen.code == (set.code != 0 || number < set.count ? set.code : EINVAL));
    if (seen.code != 0)
        return;
    want("the whole set shows what a query shows",
         set.values[number] == seen.value && set.lasts[number] == seen.last && set.increase[number] == seen.increase &&
             set.zero[number] == seen.zero && set.increase_masks[number] == seen.increase_mask &&
             set.zero_masks[number] == seen.zero_mask);
}

/* With a wait or none. The operations are copied to where a struct sembuf may lie. */
static struct vairolent_told operate(const uint8_t *body)
{
    struct sembuf operations[COUNTED_MAX];
    const uint8_t *first = body + shapes[body[0]].bytes;
    uint8_t process = body[1], count = first[-1];
    int32_t identifier = signed_at(body + 2);
    memcpy(operations, first, VAIROLENT_OPERATION_BYTES * count);
    if (body[0] == OPERATE)
        return vairolent_operate(&host, process, identifier, operations, count);
    return vairolent_operate_within(&host, process, identifier, operations, count, (uint32_t)number_at(body + 6, 4));
}

/* The values are copied to where an int32_t may lie. */
static struct vairolent_told set_all(const uint8_t *body)
{
    int32_t values[COUNTED_MAX];
    memcpy(values, body + 7, sizeof values[0] * body[6]);
    return vairolent_set_all(&host, body[1], signed_at(body + 2), values, body[6]);
}

/* Any event but a query and a read all. */
static struct vairolent_told tell(const uint8_t *body)
{
    switch (body[0]) {
    case CREATE:
        return vairolent_create(&host, body[1], body[2], (uint16_t)number_at(body + 3, 2));
    case OPERATE:
    case OPERATE_WITHIN:
        return operate(body);
    case SET_VALUE:
        return vairolent_set_value(&host, body[1], signed_at(body + 2), (uint16_t)number_at(body + 6, 2),
                                   signed_at(body + 8));
    case REMOVE:
        return vairolent_remove(&host, body[1], signed_at(body + 2));
    case SIGNAL:
        return vairolent_signal(&host, body[1]);
    case CLOCK:
        return vairolent_clock(&host, number_at(body + 1, 8));
    case SET_ALL:
        return set_all(body);
    case ACT_AS:
        return vairolent_act_as(&host, body[1], (uint32_t)number_at(body + 2, 4), (uint32_t)number_at(body + 6, 4));
    default:
        return vairolent_exit(&host, body[1]);
    }
}

/* A code, with the position of the operation that decided, if one did. */
static void write_code(int32_t code, struct vairolent_position position)
{
    printf("%" PRId32, code);
    if (position.there)
        printf("@%d", position.at);
    want("a position is 0 where there is none", position.there || position.at == 0);
}

/* The rest of an event's line, behind the event's position. */
static void write_told(struct vairolent_told told)
{
    putchar(' ');
    write_code(told.code, told.position);
    printf(" %" PRIu32 " %zu", told.value, told.looks);
    for (size_t i = 0; i < told.woken; i++) {
        printf(" %d=", host.wakings[i].process);
        write_code(host.wakings[i].code, host.wakings[i].position);
    }
    putchar('\n');
}

/* .. of a query's. A wait count is the number of ones in its mask. */
static void write_queried(struct vairolent_queried seen)
{
    printf(" %" PRId32 " %d %d %" PRIu32 " %" PRIu32 "\n", seen.code, seen.value, seen.last, seen.increase, seen.zero);
    want("a wait count is the number of ones in its mask",
         __builtin_popcount(seen.increase_mask) == (int)seen.increase &&
             __builtin_popcount(seen.zero_mask) == (int)seen.zero);
}

static void query(uint8_t process, int32_t identifier, uint16_t number)
{
    struct vairolent_queried seen = vairolent_query(&host, process, identifier, number);
    write_queried(seen);
    check_set(vairolent_query_set(&host, process, identifier), number, seen);
}

/* Every number is queried too, and one beyond the last. */
static void read_all(uint8_t process, int32_t identifier)
{
    struct vairolent_queried_set set = vairolent_query_set(&host, process, identifier);
    printf(" %" PRId32, set.code);
    for (size_t i = 0; i < set.count; i++)
        printf(" %d %" PRIu32 " %" PRIu32, set.values[i], set.increase[i], set.zero[i]);
    putchar('\n');
    for (uint16_t number = 0; number <= VAIROLENT_SEMAPHORES; number++)
        check_set(set, number, vairolent_query(&host, process, identifier, number));
}

int main(void)
{
    length = fread(file, 1, sizeof file, stdin);
    int code = file_code();
    if (code != 0) {
        printf("bad %d\n", code);
        return 0;
    }
    printf("events %zu\n", events());
    host = vairolent_fresh();
    const uint8_t *body = file + HEAD + ENTRY * events();
    for (size_t i = 0; i < events(); i++) {
        printf("%zu", i);
        if (body[0] == QUERY)
            query(body[1], signed_at(body + 2), (uint16_t)number_at(body + 6, 2));
        else if (body[0] == READ_ALL)
            read_all(body[1], signed_at(body + 2));
        else
            write_told(tell(body));
        body += length_of(i);
    }
    return faults != 0;
}
