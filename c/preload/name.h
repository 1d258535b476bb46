/* A name that programs find in this library. All others are its own. */
#ifndef VAIROLENT_NAME_H
#define VAIROLENT_NAME_H

#define NAME __attribute__((visibility("default")))

#endif
