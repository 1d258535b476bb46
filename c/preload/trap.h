/* The trap for calls that do not come by the four names: a raw system call, or a library that is bound past us. */
#ifndef VAIROLENT_TRAP_H
#define VAIROLENT_TRAP_H

/* Once for the process, with its signals held: sets the trap, if it is not there from an earlier program. From then on
 * the kernel answers no semaphore call of this process or of its descendants: it sends SIGSYS, whose handler asks the
 * daemon. A program without the handler is ended by it. */
void trap_prepare(void);

#endif
