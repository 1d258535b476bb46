/* The program's memory, which need not be there: the system copies, and tells where a pointer leads nowhere. */
#ifndef VAIROLENT_MEMORY_H
#define VAIROLENT_MEMORY_H

#include <stdbool.h>
#include <stddef.h>

/* False if the program's memory cannot be read, or written, over this length. */
bool memory_read(void *to, const void *from, size_t length);
bool memory_write(void *to, const void *from, size_t length);

#endif
