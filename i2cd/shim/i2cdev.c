/* i2cdev.c: libpmb-i2cdev.so, for LD_PRELOAD. Where a program opens /dev/i2c-N it gets a connection to
 * pmb-i2cd (connection.c); and ioctl, read and write of that go there (request.c). The bus's state is the
 * server's: the shim keeps nothing.
 *
 * No real bus is opened by these calls. There is no /dev/i2c/N, which was Linux's name of long ago and
 * which i2c-tools try first. */
#define _GNU_SOURCE
#undef _FORTIFY_SOURCE

#include <dlfcn.h>
#include <errno.h>
#include <fcntl.h>
#include <stdarg.h>
#include <stdint.h>
#include <stdlib.h>
#include <sys/ioctl.h>
#include <unistd.h>

#include "connection.h"
#include "request.h"

/* (musl's headers have these as other names of open and openat, and the request of ioctl as an int) */
#undef open64
#undef openat64
#ifdef __GLIBC__
typedef unsigned long ioctl_request;
#else
typedef int ioctl_request;
#endif

/* ---- the C library's own functions */

static struct {
    int (*open)(const char *, int, ...);
    int (*open64)(const char *, int, ...);
    int (*openat)(int, const char *, int, ...);
    int (*openat64)(int, const char *, int, ...);
    int (*ioctl)(int, ioctl_request, ...);
    ssize_t (*read)(int, void *, size_t);
    ssize_t (*write)(int, const void *, size_t);
} real;

/* Finds them; before main, and before that where another library's start calls one. */
__attribute__((constructor)) static void find_real(void)
{
    if (real.write)
        return;
    /* (ISO C has no conversion between pointers to objects and to functions; POSIX has) */
    *(void **)&real.open = dlsym(RTLD_NEXT, "open");
    *(void **)&real.open64 = dlsym(RTLD_NEXT, "open64");
    *(void **)&real.openat = dlsym(RTLD_NEXT, "openat");
    *(void **)&real.openat64 = dlsym(RTLD_NEXT, "openat64");
    *(void **)&real.ioctl = dlsym(RTLD_NEXT, "ioctl");
    *(void **)&real.read = dlsym(RTLD_NEXT, "read");
    *(void **)&real.write = dlsym(RTLD_NEXT, "write");
}

/* ---- what calls return */

/* Whether the kernel has an ioctl for each file, whatever it is. */
static int is_for_each_file(uint32_t known)
{
    return known == FIOCLEX || known == FIONCLEX || known == FIONBIO || known == FIOASYNC;
}

/* What a call returns: an errno below 0 goes to errno. */
static ssize_t returned(ssize_t result, int before)
{
    errno = result < 0 ? (int)-result : before;
    return result < 0 ? -1 : result;
}

/* ---- the functions that programs call */

#define EXPORTED __attribute__((visibility("default")))

/* The mode, which is there only where a file may be made. */
#define MODE_AFTER(last) \
    mode_t mode = 0; \
    if ((flags & O_CREAT) || (flags & O_TMPFILE) == O_TMPFILE) { \
        va_list rest; \
        va_start(rest, last); \
        mode = va_arg(rest, mode_t); \
        va_end(rest); \
    }

EXPORTED int open(const char *path, int flags, ...)
{
    int opened;
    MODE_AFTER(flags)
    find_real();
    if (connection_opens(path, flags, &opened))
        return opened;
    return connection_instead(real.open(path, flags, mode), flags);
}

EXPORTED int open64(const char *path, int flags, ...)
{
    int opened;
    MODE_AFTER(flags)
    find_real();
    if (connection_opens(path, flags, &opened))
        return opened;
    return connection_instead(real.open64(path, flags, mode), flags);
}

EXPORTED int openat(int directory, const char *path, int flags, ...)
{
    int opened;
    MODE_AFTER(flags)
    find_real();
    if (connection_opens(path, flags, &opened))
        return opened;
    return connection_instead(real.openat(directory, path, flags, mode), flags);
}

EXPORTED int openat64(int directory, const char *path, int flags, ...)
{
    int opened;
    MODE_AFTER(flags)
    find_real();
    if (connection_opens(path, flags, &opened))
        return opened;
    return connection_instead(real.openat64(directory, path, flags, mode), flags);
}

/* Those that glibc's headers call where _FORTIFY_SOURCE is set and there is no mode. */
EXPORTED int __open_2(const char *path, int flags)
{
    return open(path, flags);
}

EXPORTED int __open64_2(const char *path, int flags)
{
    return open64(path, flags);
}

EXPORTED int __openat_2(int directory, const char *path, int flags)
{
    return openat(directory, path, flags);
}

EXPORTED int __openat64_2(int directory, const char *path, int flags)
{
    return openat64(directory, path, flags);
}

EXPORTED int ioctl(int descriptor, ioctl_request request, ...)
{
    va_list rest;
    int before = errno;
    va_start(rest, request);
    void *argument = va_arg(rest, void *);
    va_end(rest);
    find_real();
    if (is_for_each_file((uint32_t)request) || connection_access(descriptor) < 0)
        return real.ioctl(descriptor, request, argument);
    return (int)returned(ask_ioctl(descriptor, (uint32_t)request, argument), before);
}

EXPORTED ssize_t read(int descriptor, void *bytes, size_t length)
{
    int before = errno, access;
    find_real();
    access = connection_access(descriptor);
    if (access < 0)
        return real.read(descriptor, bytes, length);
    return returned(access == O_WRONLY ? -EBADF : ask_read(descriptor, bytes, length), before);
}

EXPORTED ssize_t write(int descriptor, const void *bytes, size_t length)
{
    int before = errno, access;
    find_real();
    access = connection_access(descriptor);
    if (access < 0)
        return real.write(descriptor, bytes, length);
    return returned(access == O_RDONLY ? -EBADF : ask_write(descriptor, bytes, length), before);
}

/* What glibc's header calls for read where _FORTIFY_SOURCE is set. */
EXPORTED ssize_t __read_chk(int descriptor, void *bytes, size_t length, size_t room)
{
    if (length > room)
        abort();
    return read(descriptor, bytes, length);
}
