/* What is done once in a process: when the library is loaded, or at a call before that. */
#ifndef VAIROLENT_LOAD_H
#define VAIROLENT_LOAD_H

void load(void);

#endif
