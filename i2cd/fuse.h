/* fuse.h: a request of the kernel over /dev/cuse, and its reply (<linux/fuse.h>). */
#ifndef FUSE_H
#define FUSE_H

#include <stddef.h>
#include <stdint.h>
#include <sys/uio.h>

#include <linux/fuse.h>

#include "cuse.h"

/* The most bytes of the program's memory that the kernel gives or takes in one request. (It is more
 * than MOST_LENGTH, so that a longer read or write comes whole, and is cut as i2c-dev cuts it.) */
#define MOST_DATA 131072

/* The whole of a request. */
struct request {
    struct fuse_in_header head;
    uint8_t *body;
    size_t length; /* of the body */
};

/* Replies to a request: an errno below 0, or 0 and what follows it. */
void reply(const struct cuse *cuse, const struct request *request, int error,
           const struct iovec *data, size_t count);
void reply_error(const struct cuse *cuse, const struct request *request, int error);
void reply_bytes(const struct cuse *cuse, const struct request *request, void *bytes,
                 size_t length);

/* Does an ioctl, or asks for the memory of the program that it needs. */
void serve_ioctl(struct cuse *cuse, const struct request *request);

#endif
