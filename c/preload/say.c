#define _GNU_SOURCE
#include "say.h"

#include <stdarg.h>
#include <stdio.h>
#include <string.h>

#include "kernel.h"

void say(const char *format, ...)
{
    static const char name[] = "vairolent: ";
    char line[400];
    memcpy(line, name, sizeof name);
    va_list values;
    va_start(values, format);
    vsnprintf(line + sizeof name - 1, sizeof line - sizeof name, format, values);
    va_end(values);
    size_t length = strlen(line);
    line[length] = '\n';
    if (kernel_write(STDERR_FILENO, line, length + 1) < 0)
        return; /* nobody listens */
}
