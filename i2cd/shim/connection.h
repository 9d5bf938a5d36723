/* connection.h: what a program gets where it opens a bus: a connection to pmb-i2cd. */
#ifndef CONNECTION_H
#define CONNECTION_H

/* Opens a path where it is an adapter's, /dev/i2c-N or /dev/i2c/N: 1, and `opened` is what open returns. */
int connection_opens(const char *path, int flags, int *opened);

/* What open returns where it has opened `descriptor`, by whatever name: if that is a real bus it is closed,
 * and a connection stands in its place. */
int connection_instead(int descriptor, int flags);

/* The access of a descriptor that is a connection of the shim (O_RDONLY ..); -1 of any other. */
int connection_access(int descriptor);

#endif
