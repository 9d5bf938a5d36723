/* request.h: a request of a program, as it comes over the socket (wire.h). */
#ifndef REQUEST_H
#define REQUEST_H

#include <stddef.h>
#include <stdint.h>
#include <sys/uio.h>

#include "adapter.h"
#include "file.h"
#include "kernel.h"

/* A request under way: its packet, whose buffers get what is read, and where its reply goes. */
struct request {
    uint8_t *packet;
    size_t length;
    int reply;
    /* what follows the head of the reply */
    struct iovec data[MOST_MESSAGES];
    size_t parts;
};

/* Does a request. Returns what the call returns; EBADE below 0 where the packet is no request. */
int perform(struct request *request, struct open_file *file, struct adapter *adapter);

#endif
