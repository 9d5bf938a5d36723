/* cuse.c: the protocol of /dev/cuse (<linux/fuse.h>): each call of a program on the device is a
 * request of the kernel's, and has one reply. Those of ioctl are in ioctl.c. */
#define _GNU_SOURCE
#include "cuse.h"

#include <errno.h>
#include <fcntl.h>
#include <poll.h>
#include <stdio.h>
#include <string.h>
#include <sys/stat.h>
#include <sys/uio.h>
#include <unistd.h>

#include "fuse.h"
#include "kernel.h"

/* How long the kernel may take for its first request, in milliseconds. */
#define FIRST_REQUEST 10000

/* ---- replies */

void reply(const struct cuse *cuse, const struct request *request, int error,
           const struct iovec *data, size_t count)
{
    struct fuse_out_header head = { sizeof head, error, request->head.unique };
    struct iovec parts[2 + MOST_MESSAGES] = { { &head, sizeof head } };
    for (size_t i = 0; i < count; i++) {
        parts[1 + i] = data[i];
        head.len += (uint32_t)data[i].iov_len;
    }
    /* (it fails where the program has been killed in the meantime, and then nobody waits) */
    ssize_t written = writev(cuse->descriptor, parts, (int)(1 + count));
    (void)written;
}

void reply_error(const struct cuse *cuse, const struct request *request, int error)
{
    reply(cuse, request, error, NULL, 0);
}

void reply_bytes(const struct cuse *cuse, const struct request *request, void *bytes,
                 size_t length)
{
    struct iovec data = { bytes, length };
    reply(cuse, request, 0, &data, 1);
}

/* ---- open, read, write, close */

static void open_next(struct cuse *cuse, const struct request *request)
{
    for (uint64_t i = 0; i < MOST_CUSE_FILES; i++) {
        if (!cuse->file[i].is_open) {
            struct fuse_open_out out = { .fh = i };
            memset(&cuse->file[i], 0, sizeof cuse->file[i]);
            cuse->file[i].is_open = 1;
            reply_bytes(cuse, request, &out, sizeof out);
            return;
        }
    }
    reply_error(cuse, request, -ENFILE);
}

static void close_file(struct cuse *cuse, const struct request *request)
{
    struct fuse_release_in in;
    if (request->length >= sizeof in) {
        memcpy(&in, request->body, sizeof in);
        if (in.fh < MOST_CUSE_FILES)
            cuse->file[in.fh].is_open = 0;
    }
    reply_error(cuse, request, 0);
}

static void read_bytes(const struct cuse *cuse, const struct request *request)
{
    static uint8_t bytes[MOST_LENGTH];
    struct fuse_read_in in;
    int result = -EIO;
    if (request->length >= sizeof in) {
        memcpy(&in, request->body, sizeof in);
        uint16_t length = in.size < MOST_LENGTH ? (uint16_t)in.size : MOST_LENGTH;
        if (in.fh < MOST_CUSE_FILES && cuse->file[in.fh].is_open)
            result = file_read(&cuse->file[in.fh].file, cuse->adapter, bytes, length);
    }
    if (result < 0)
        reply_error(cuse, request, result);
    else
        reply_bytes(cuse, request, bytes, (size_t)result);
}

static void write_bytes(const struct cuse *cuse, const struct request *request)
{
    static uint8_t bytes[MOST_LENGTH];
    struct fuse_write_in in;
    int result = -EIO;
    if (request->length >= sizeof in) {
        memcpy(&in, request->body, sizeof in);
        uint16_t length = in.size < MOST_LENGTH ? (uint16_t)in.size : MOST_LENGTH;
        if (in.fh < MOST_CUSE_FILES && cuse->file[in.fh].is_open &&
            request->length - sizeof in >= length) {
            memcpy(bytes, request->body + sizeof in, length);
            result = file_write(&cuse->file[in.fh].file, cuse->adapter, bytes, length);
        }
    }
    struct fuse_write_out out = { .size = (uint32_t)result };
    if (result < 0)
        reply_error(cuse, request, result);
    else
        reply_bytes(cuse, request, &out, sizeof out);
}

/* The kernel's first request: the reply names the device. */
static void begin(const struct cuse *cuse, const struct request *request)
{
    static const char key[] = "DEVNAME=";
    struct cuse_init_out out = { .major = FUSE_KERNEL_VERSION,
                                 .minor = FUSE_KERNEL_MINOR_VERSION,
                                 .flags = CUSE_UNRESTRICTED_IOCTL,
                                 .max_read = MOST_DATA,
                                 .max_write = MOST_DATA };
    struct iovec parts[3] = { { &out, sizeof out },
                              { (void *)(uintptr_t)key, sizeof key - 1 },
                              { (void *)(uintptr_t)cuse->name, strlen(cuse->name) + 1 } };
    reply(cuse, request, 0, parts, 3);
}

/* ---- requests */

int cuse_serve(struct cuse *cuse)
{
    static uint8_t bytes[sizeof(struct fuse_in_header) + 4096 + MOST_DATA];
    struct request request;
    ssize_t length = read(cuse->descriptor, bytes, sizeof bytes);
    if (length < 0)
        /* (ENOENT: the program was killed before its request was read) */
        return errno == EAGAIN || errno == EINTR || errno == ENOENT ? 0 : -errno;
    if ((size_t)length < sizeof request.head)
        return -EIO;
    memcpy(&request.head, bytes, sizeof request.head);
    request.body = bytes + sizeof request.head;
    request.length = (size_t)length - sizeof request.head;
    switch (request.head.opcode) {
    case CUSE_INIT:
        begin(cuse, &request);
        break;
    case FUSE_OPEN:
        open_next(cuse, &request);
        break;
    case FUSE_RELEASE:
        close_file(cuse, &request);
        break;
    case FUSE_READ:
        read_bytes(cuse, &request);
        break;
    case FUSE_WRITE:
        write_bytes(cuse, &request);
        break;
    case FUSE_IOCTL:
        serve_ioctl(cuse, &request);
        break;
    case FUSE_INTERRUPT: /* a request is done once it is read: there is nothing to interrupt */
    case FUSE_FORGET:
        break; /* (these have no reply) */
    default:
        reply_error(cuse, &request, -ENOSYS);
    }
    return 0;
}

/* Whether there is a file of the name in /dev. It would stay, and programs would open that one: a real
 * bus perhaps. */
static int is_taken(const char *name)
{
    char path[64];
    struct stat found;
    return snprintf(path, sizeof path, "/dev/%s", name) < (int)sizeof path && lstat(path, &found) == 0;
}

int cuse_open(struct cuse *cuse, struct adapter *adapter, const char *name)
{
    struct pollfd first = { .events = POLLIN };
    if (is_taken(name))
        return -EEXIST;
    memset(cuse, 0, sizeof *cuse);
    cuse->adapter = adapter;
    cuse->name = name;
    cuse->descriptor = open("/dev/cuse", O_RDWR | O_CLOEXEC | O_NONBLOCK);
    if (cuse->descriptor < 0)
        return -errno;
    first.fd = cuse->descriptor;
    int result = poll(&first, 1, FIRST_REQUEST) == 1 ? cuse_serve(cuse) : -ETIMEDOUT;
    /* (the kernel closes its end where it can't make the device) */
    if (result == 0 && poll(&first, 1, 0) == 1 && (first.revents & POLLERR))
        result = -EEXIST;
    if (result != 0)
        close(cuse->descriptor);
    return result;
}

void cuse_close(struct cuse *cuse)
{
    close(cuse->descriptor);
}
