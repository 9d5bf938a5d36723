/* connection.c: what a program gets where it opens a bus: a connection to pmb-i2cd.
 *
 *   PMB_I2C_SOCKET  the server's socket
 *   PMB_I2C_BUS     the only N that there is; every N is the server's bus where it is not set
 *
 * Nothing is kept here. A descriptor is known by the name that its own end of the connection has,
 * one in the abstract namespace that begins with OWN_NAME: so it is known after dup, fork and exec,
 * and in whichever process, and once it is closed, in whatever way, it is gone. */
#define _GNU_SOURCE
#include "connection.h"

#include <errno.h>
#include <fcntl.h>
#include <poll.h>
#include <stddef.h>
#include <stdint.h>
#include <stdio.h>
#include <stdlib.h>
#include <string.h>
#include <sys/random.h>
#include <sys/socket.h>
#include <sys/stat.h>
#include <sys/sysmacros.h>
#include <sys/un.h>
#include <time.h>
#include <unistd.h>

/* The name of a connection's own end: this, a digit for the access (O_RDONLY, O_WRONLY or O_RDWR), and
 * 16 random digits. */
#define OWN_NAME "pmb-i2cdev-"
#define OWN_LENGTH (sizeof OWN_NAME - 1)

/* How often a server is asked that has made its socket just now, and the time in between, in milliseconds. */
#define NEW_TRIES 100
#define NEW_WAIT 10

/* The major number of the devices of i2c-dev (Linux's Documentation/admin-guide/devices.txt). */
#define I2C_MAJOR 89

int connection_access(int descriptor)
{
    struct sockaddr_un name;
    socklen_t length = sizeof name;
    int before = errno;
    int access = -1;
    name.sun_family = AF_UNSPEC;
    if (getsockname(descriptor, (struct sockaddr *)&name, &length) == 0 && name.sun_family == AF_UNIX &&
        length == offsetof(struct sockaddr_un, sun_path) + 18 + OWN_LENGTH && name.sun_path[0] == 0 &&
        memcmp(name.sun_path + 1, OWN_NAME, OWN_LENGTH) == 0)
        access = name.sun_path[1 + OWN_LENGTH] - '0';
    errno = before;
    return access;
}

/* Names the own end of a connection. */
static int name_own_end(int descriptor, int access)
{
    struct sockaddr_un name = { .sun_family = AF_UNIX };
    socklen_t length = offsetof(struct sockaddr_un, sun_path) + 18 + OWN_LENGTH;
    uint64_t number = (uint64_t)getpid() << 32;
    for (int tries = 0; tries < 100; tries++, number++) {
        /* (where there is no random number, another one that no process has now) */
        ssize_t drawn = getrandom(&number, sizeof number, GRND_NONBLOCK);
        (void)drawn;
        snprintf(name.sun_path + 1, sizeof name.sun_path - 1, "%s%d%016llx", OWN_NAME, access,
                 (unsigned long long)number);
        if (bind(descriptor, (struct sockaddr *)&name, length) == 0)
            return 0;
        if (errno != EADDRINUSE)
            break;
    }
    return -1;
}

/* What open fails with where a connection can't be had: ENODEV where there is no server, as where a bus has
 * no adapter. */
static int error_of_connect(int error)
{
    switch (error) {
    case EACCES:
    case EPERM:
        return EACCES;
    case ENFILE:
    case ENOBUFS:
    case ENOMEM:
        return ENOMEM;
    default:
        return ENODEV;
    }
}

/* Whether a server may have made its socket just now, and not listen yet: then it is asked again. */
static int is_new(const char *path)
{
    struct stat found;
    return lstat(path, &found) == 0 && found.st_mtime + 1 >= time(NULL);
}

/* Connects to the server. */
static int open_bus(int flags)
{
    struct sockaddr_un name = { .sun_family = AF_UNIX };
    const char *path = getenv("PMB_I2C_SOCKET");
    int type = SOCK_SEQPACKET | (flags & O_CLOEXEC ? SOCK_CLOEXEC : 0);
    if (path == NULL || *path == 0 || strlen(path) >= sizeof name.sun_path) {
        errno = ENODEV;
        return -1;
    }
    strcpy(name.sun_path, path);
    int descriptor = socket(AF_UNIX, type, 0);
    if (descriptor < 0)
        return -1;
    int result = name_own_end(descriptor, flags & O_ACCMODE);
    for (int tries = 0; result == 0; tries++) {
        if (connect(descriptor, (struct sockaddr *)&name, sizeof name) == 0)
            return descriptor;
        if (errno == ECONNREFUSED && tries < NEW_TRIES && is_new(path)) {
            poll(NULL, 0, NEW_WAIT);
        } else if (errno != EINTR) {
            errno = error_of_connect(errno);
            result = -1;
        }
    }
    int error = errno;
    close(descriptor);
    errno = error;
    return -1;
}

/* Opens the adapter of a number, if there is one. */
static int open_number(unsigned long number, int flags)
{
    const char *only = getenv("PMB_I2C_BUS");
    if (only != NULL && *only != 0 && strtoul(only, NULL, 10) != number) {
        errno = ENOENT;
        return -1;
    }
    return open_bus(flags);
}

/* Whether a path is that of an adapter. There is no /dev/i2c/N: has_number is 0 for it, as for an N that
 * is too great. */
static int is_bus_path(const char *path, int *has_number, unsigned long *number)
{
    static const char start[] = "/dev/i2c";
    char *end;
    if (path == NULL || strncmp(path, start, sizeof start - 1) != 0)
        return 0;
    path += sizeof start - 1;
    if ((path[0] != '-' && path[0] != '/') || path[1] < '0' || path[1] > '9')
        return 0;
    errno = 0;
    *number = strtoul(path + 1, &end, 10);
    *has_number = path[0] == '-' && errno == 0;
    return *end == 0;
}

int connection_opens(const char *path, int flags, int *opened)
{
    int before = errno, has_number = 0;
    unsigned long number = 0;
    int is_bus = is_bus_path(path, &has_number, &number);
    errno = before;
    if (is_bus && has_number) {
        *opened = open_number(number, flags);
    } else if (is_bus) {
        errno = ENOENT;
        *opened = -1;
    }
    return is_bus;
}

int connection_instead(int descriptor, int flags)
{
    int before = errno;
    struct stat found;
    int is_real = descriptor >= 0 && fstat(descriptor, &found) == 0 && S_ISCHR(found.st_mode) &&
                  major(found.st_rdev) == I2C_MAJOR;
    errno = before;
    if (!is_real)
        return descriptor;
    close(descriptor);
    return open_number(minor(found.st_rdev), flags);
}
