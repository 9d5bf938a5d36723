/* request.h: the calls of a program on its bus, as requests to pmb-i2cd. Each returns what the call does, or
 * an errno below 0. */
#ifndef REQUEST_H
#define REQUEST_H

#include <stdint.h>
#include <sys/types.h>

/* (the kernel looks at 32 bits of an ioctl's request) */
int ask_ioctl(int connection, uint32_t request, void *argument);
ssize_t ask_read(int connection, void *bytes, size_t length);
ssize_t ask_write(int connection, const void *bytes, size_t length);

#endif
