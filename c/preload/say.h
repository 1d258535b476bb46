/* What the library tells people. */
#ifndef VAIROLENT_SAY_H
#define VAIROLENT_SAY_H

/* Writes a line "vairolent: ..." on the standard error output. The format has no directive but %s, so that nothing is
 * allocated: the caller may be a signal handler. */
__attribute__((format(printf, 1, 2))) void say(const char *format, ...);

#endif
